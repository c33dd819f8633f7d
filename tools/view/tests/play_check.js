"use strict";
// Runs in the page of `play` in place of a reader: follows other reports in another order than forwards, and steps through the shown one.
// What it finds goes into the page as text, for the test to compare.

const inOrder = (jobs) => jobs.sort((one, other) => one[0] - other[0] || one[1] - other[1]);

/** Returns a state in the form in which the test compares it. */
function seen(state) {
  const owned = ownersOf(state);
  const job = (one) => [one.engine, one.number];
  return {
    areas: AREAS.map((area) => runsOf(owned[area]).map(([first, last, owner]) => [first, last, ownerName(state.script, owner)])),
    accounts: AREAS.map((area) => Object.values(accountOf(owned[area]))),
    lists: state.lists.flat().map((members) => members.slice()),
    buffers: state.buffers.map((buffer) => [buffer.live, buffer.live ? standing(buffer) : "", targetsText(buffer), buffer.pins, buffer.holder,
      Array.from(buffer.frames), Array.from(buffer.slots), inOrder(state.unfinished(buffer.fences).map((fence) => [...job(fence), fence.usage]))]),
    jobs: state.jobs.flatMap((jobs) => Array.from(jobs.values())).map((one) => [...job(one), one.ran, one.packets, inOrder(state.lastUnfinished(one.waits).map(job))]),
    ghosts: state.ghosts.map((ghost) => [ghost.number, ghost.frames, inOrder(state.unfinished(ghost.jobs).map(job))]),
    courses: state.courses.map((course) => [course.answered, course.stamp, course.held, course.first, course.caught.map((victim) => [victim.index, victim.why, victim.fail]),
      course.skips.slice().sort((one, other) => one - other), course.fail]),
  };
}

/** Follows a report to each of the entries in `order`; explains each entry once. */
function follow(data, order) {
  data.byName = new Map(data.buffers.map((buffer) => [buffer.name, buffer.index]));
  const lines = data.journal === "" ? [] : data.journal.split("\n");
  const line = new Timeline(data, lines);
  line.step = 7;
  const states = order.map((number) => [number, seen(line.at(number))]);
  const words = lines.map((text, at) => explain(line.at(at), text));
  const faults = words.map(({ sentence, kernel }, at) => (/undefined|NaN|\[object/.test(sentence + kernel) ? `${at + 1}: ${sentence}` : "")).filter(Boolean);
  return { states, faults };
}

/** Presses keys, and notes what the page shows after each. */
function stepThrough(keys) {
  return keys.map((key) => {
    document.dispatchEvent(new KeyboardEvent("keydown", { key }));
    const accounts = Object.fromEntries(AREAS.map((area) => [area, document.querySelector(`#area-${area} .account`).textContent]));
    return { entry: byId("number").value, line: byId("line").textContent, accounts, rows: document.querySelectorAll("#buffers tbody tr").length };
  });
}

function check({ reports, keys }) {
  try {
    return { reports: reports.map(({ data, order }) => follow(data, order)), steps: stepThrough(keys) };
  } catch (error) {
    return { error: `${error.message}\n${error.stack}` };
  }
}
