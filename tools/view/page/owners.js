"use strict";
// Who has each page of VRAM and TT, each frame and each slot. A number stands for an owner: 0 is free, and see the functions below.

const AREAS = ["vram", "tt", "frames", "swap"];
const AREA_TITLES = { vram: "VRAM", tt: "TT", frames: "Frames", swap: "Swap slots" };
const AREA_UNITS = { vram: "page", tt: "page", frames: "frame", swap: "slot" };

const liveOwner = (index) => 2 * index + 1;
const targetOwner = (index) => 2 * index + 2;
const ghostOwner = (number) => -number;
const isGhost = (owner) => owner < 0;
const isTarget = (owner) => owner > 0 && owner % 2 === 0;
const bufferOf = (owner) => (owner - 1) >> 1;

/** Returns the owners of each page, by area. */
function ownersOf(state) {
  const sizes = state.script.sizes;
  const owners = Object.fromEntries(AREAS.map((area) => [area, new Int32Array(sizes[area])]));
  for (const buffer of state.buffers) if (buffer.live) addBuffer(owners, buffer);
  for (const ghost of state.ghosts) {
    const owner = ghostOwner(ghost.number);
    if (ghost.memory !== "sys") fillSpans(owners[ghost.memory], ghost.spans, owner);
    for (const frame of ghost.frames) owners.frames[frame] = owner;
  }
  return owners;
}

function addBuffer(owners, buffer) {
  const index = buffer.declared.index;
  if (buffer.memory !== "sys") fillSpans(owners[buffer.memory], buffer.spans, liveOwner(index));
  for (const memory of ["tt", "vram"]) {
    if (buffer.targets[memory]) fillSpans(owners[memory], buffer.targets[memory], targetOwner(index));
  }
  for (const frame of buffer.frames) if (frame >= 0) owners.frames[frame] = liveOwner(index);
  for (const slot of buffer.slots) if (slot >= 0) owners.swap[slot] = liveOwner(index);
}

function fillSpans(owners, spans, owner) {
  for (const [first, last] of spans) owners.fill(owner, first, last);
}

/** Counts free, live, target and ghost pages, as the accounts of a report do. */
function accountOf(owners) {
  const account = { size: owners.length, free: 0, live: 0, target: 0, ghost: 0 };
  for (const owner of owners) account[owner === 0 ? "free" : isGhost(owner) ? "ghost" : isTarget(owner) ? "target" : "live"] += 1;
  return account;
}

/** Cuts owners into runs [first, last, owner]. */
function runsOf(owners) {
  const runs = [];
  for (let first = 0; first < owners.length; ) {
    let last = first + 1;
    while (last < owners.length && owners[last] === owners[first]) last += 1;
    runs.push([first, last, owners[first]]);
    first = last;
  }
  return runs;
}

/** Names an owner. */
function ownerName(script, owner) {
  if (owner === 0) return "free";
  if (isGhost(owner)) return `ghost ${-owner}`;
  return script.buffers[bufferOf(owner)].name + (isTarget(owner) ? " (target)" : "");
}

/** Says in words who has what of an area. */
function areaText(script, owners) {
  return runsOf(owners).map(([first, last, owner]) => `${ownerName(script, owner)} ${spanText([first, last])}`).join(" · ");
}
