"use strict";
// What each kind of entry does, in words, by the state before it.

const spanText = ([first, last]) => `${first}-${last}`;
const spansText = (spans) => spans.map(spanText).join(",") || "-";
const counted = (count, word) => `${count} ${word}${count === 1 ? "" : "s"}`;
const listed = (words) => (words.length < 2 ? words.join("") : `${words.slice(0, -1).join(", ")} and ${words[words.length - 1]}`);
const jobName = (job) => `job ${job.number} of e${job.engine}`;
const jobsText = (jobs) => listed(jobs.map(jobName));
const nameOf = (state, index) => state.buffers[index].declared.name;
const named = (state, indexes) => listed(indexes.map((index) => nameOf(state, index)));

/** Says where a live buffer stands. */
function standing(buffer) {
  return MEMORY_NAMES[buffer.memory] + (buffer.spans.length ? ` ${spansText(buffer.spans)}` : "");
}

/** Names the command that a thread is at, with its number. */
function commandText(state, course) {
  return `command ${course.answered + 1}, \`${state.commandOf(course).text}\``;
}

/** Names the last unfinished job of each engine among fences. */
function unfinishedText(state, fences) {
  return jobsText(state.lastUnfinished(fences));
}

const REFUSALS = {
  NoBuffer: "a buffer that it names isn't live",
  Exists: "the buffer is live already",
  Pinned: "the buffer is pinned, and would have to leave its place",
  NotPinned: "the buffer has no pins",
  PinMax: "the buffer has 255 pins, which is the most",
  NoSpace: "none of the places where it may search has room, or a buffer that can be evicted",
  NoPages: "no frame is free, no ghost has one, and no buffer can give one up to swap",
  NoSwap: "a page is left, and no slot is free",
};

/** Says why one buffer doesn't make room. */
function causeText(item) {
  const [name, why, stamp] = item.split(":");
  const causes = {
    pinned: `${name} is pinned`,
    reserved: `${name} is held by ticket ${stamp}`,
    outside: `${name} stands outside the place's reach`,
    skipped: `${name} was caught before and couldn't leave`,
  };
  return causes[why];
}

/** Says what a result shows. */
function shownText(state, [kind, first, spans], command) {
  if (kind === "ok") return "";
  if (kind === "read") return ` It reads ${first}.`;
  const name = command.buffers.length ? nameOf(state, command.buffers[0]) : "it";
  return ` ${name} stands in ${MEMORY_NAMES[first]}${spans === "-" ? "" : ` ${spans}`}.`;
}

/** Says what becomes of the buffers that an answered command holds. */
function letGoText(state, course, command) {
  const change = { pin: 1, unpin: -1 }[command.verb] || 0;
  const pinned = course.held.filter((index) => state.buffers[index].pins + change > 0);
  const others = course.held.filter((index) => !pinned.includes(index));
  const [are, count] = others.length === 1 ? ["is", "counts"] : ["are", "count"];
  const touched = others.length ? ` ${named(state, others)} ${are} let go, and ${count} as just used.` : "";
  return touched + (pinned.length ? ` While pinned, ${named(state, pinned)} stands on no list.` : "");
}

/** The words of each kind, by the state before it, the entry's words, the thread's course and the engine's number. */
const SENTENCES = {
  ticket(state, [stamp], course) {
    const rule = "Where two commands want one buffer, the smaller ticket is the older one.";
    return `t${course.thread} begins ${commandText(state, course)}, and draws ticket ${stamp}. ${rule}`;
  },
  reserve(state, [name], course) {
    return `t${course.thread} reserves ${name}: until it lets go, no other thread may use, move or evict it.`;
  },
  backoff(state, [name, stamp], course) {
    const why = `${name} is held by the older ticket ${stamp}, and t${course.thread} itself holds ${named(state, course.held)}.`;
    return `${why} So it lets go of all that it holds, keeps its ticket, and waits for ${name} first. That is wait-die: no circle of waits can close.`;
  },
  new(state, [name]) {
    return `${name} is made: ${counted(state.buffer(name).declared.pages, "page")} in SYSTEM, without frames yet, which read as zeros.`;
  },
  free(state, [name, ghost]) {
    if (!Number(ghost)) return `${name} is freed. No job uses it any more, so all that it had is free at once.`;
    const jobs = unfinishedText(state, state.buffer(name).fences);
    return `${name} is freed, but ${jobs} may still use it. Ghost ${ghost} keeps its pages and frames until then: this is delayed destroy.`;
  },
  take: takeText,
  untake(state, [name, memory]) {
    const spans = state.buffer(name).targets[memory];
    return `${name} gives back its target in ${MEMORY_NAMES[memory]}${spans.length ? `, ${spansText(spans)}` : ""}: it can't get there.`;
  },
  populate(state, [name, page, frame]) {
    const late = state.buffer(name).memory === "vram" ? " Its bytes are in VRAM until the move has copied them." : "";
    return `Page ${page} of ${name} has no frame. It gets frame ${frame}, the lowest free one, filled with zeros.${late}`;
  },
  swapin(state, [name, page, slot, frame]) {
    return `Page ${page} of ${name} comes back from slot ${slot} into frame ${frame}. The slot is free.`;
  },
  depopulate(state, [name]) {
    const frames = counted(framesOf(state.buffer(name)).length, "frame");
    return `${name} gives back ${frames}, which it got for a move out of VRAM that can't be made.`;
  },
  bind(state, [name]) {
    const spans = spansText(state.buffer(name).targets.tt);
    return `Pages ${spans} of TT are mapped to the frames of ${name}, which now stands in TT. Nothing is copied, and nothing is waited for.`;
  },
  unbind(state, [name]) {
    const spans = spansText(state.buffer(name).spans);
    return `Pages ${spans} of TT are unmapped and free. ${name} stands in SYSTEM with the frames that it had. Nothing is copied; all its jobs are done.`;
  },
  move: moveText,
  catch(state, [name, why], course) {
    const catches = `t${course.thread} catches it`;
    if (why === "swap") return `No frame is free. ${name} is the first buffer in eviction order that has one to give: ${catches}, to swap it out.`;
    const order = `the eviction order of ${MEMORY_NAMES[why]}`;
    return `The place has no room. ${name} is the first buffer in ${order} that may be evicted for it: ${catches}.`;
  },
  loose(state, [name]) {
    return `The victim ${name} has made room. It is let go, and counts as just used.`;
  },
  skip(state, [name]) {
    return `The victim ${name} found no way out. It is let go where it stands, and this command won't try to evict it again.`;
  },
  dry(state, [name, place, causes]) {
    const head = `The search for ${name} gives up place ${place} of the forced round`;
    if (causes === "short") return `${head}, which has fewer pages than ${name}.`;
    if (causes === "-") return `${head}: its free pages don't fit, by alignment or block borders, and no buffer is there.`;
    return `${head}, which has no room, and no buffer to evict: ${causes.split(",").map(causeText).join("; ")}.`;
  },
  swapout(state, [name, page, slot]) {
    const frame = state.buffer(name).frames[page];
    return `Page ${page} of ${name} goes from frame ${frame} to slot ${slot}, the lowest free one. The frame is free.`;
  },
  nopages(state, [name]) {
    return `${name} needs a frame: none is free, no ghost has one, and no buffer can give one up to swap.`;
  },
  arm: armText,
  packet(state, [number, packet, bytes], course, engine) {
    const job = state.jobs[engine].get(Number(number));
    const shown = bytes ? ` It shows the bytes ${bytes.length > 64 ? `${bytes.slice(0, 64)}...` : bytes}.` : "";
    if (engine === 0) return `e0 copies page ${packet} of ${job.label}.`;
    return `e${engine} runs packet ${Number(packet) + 1} of ${job.packets} of job ${number} (${job.label}).${shown}`;
  },
  done(state, [number], course, engine) {
    return `Job ${number} of e${engine} (${state.jobs[engine].get(Number(number)).label}) is done. Whoever waits for this fence may go on.`;
  },
  reap(state, [number]) {
    const ghost = state.ghosts.find((one) => one.number === Number(number));
    const pages = ghost.spans.length ? [`${spansText(ghost.spans)} of ${MEMORY_NAMES[ghost.memory]}`] : [];
    const frames = ghost.frames.length ? [counted(ghost.frames.length, "frame")] : [];
    return `The jobs of ghost ${number} are done. What it kept is free: ${listed([...pages, ...frames]) || "nothing"}.`;
  },
  bulk(state, [group]) {
    return `The members of group ${group} go to the end of each list, in their order: there they are evicted last.`;
  },
  result(state, words, course) {
    const command = state.commandOf(course);
    return `t${course.thread} has done ${commandText(state, course)}.${shownText(state, words, command)}${letGoText(state, course, command)}`;
  },
  refused(state, [why], course) {
    const end = "Moves and evictions that it made on the way stay.";
    return `t${course.thread} is refused ${commandText(state, course)}, with ${why}: ${REFUSALS[why]}. ${end}`;
  },
};

function takeText(state, [name, memory, spans]) {
  if (memory === "sys") return `${name} has SYSTEM as its target. There is always room in SYSTEM.`;
  const fence = { engine: 0, number: state.moveFence };
  const isLate = memory === "vram" && state.moveFence && !state.isDone(fence);
  const late = isLate ? ` Their last contents aren't copied out yet: the move fence, ${jobName(fence)}, becomes a KERNEL fence of ${name}.` : "";
  const found = `The search for ${name} has found room: ${spans} of ${MEMORY_NAMES[memory]} is its target.`;
  return `${found} ${name} itself still stands in ${standing(state.buffer(name))}.${late}`;
}

function armText(state, [engine, number], course) {
  const { buffers, writes, packets } = state.commandOf(course);
  const reads = buffers.filter((index) => !writes.includes(index));
  const uses = [[writes, "WRITE"], [reads, "READ"]].filter(([indexes]) => indexes.length);
  const fences = uses.map(([indexes, usage]) => `a ${usage} fence of ${named(state, indexes)}`);
  const before = buffers.flatMap((index) => state.buffers[index].fences.filter((fence) => writes.includes(index) || fence.usage !== "READ"));
  const head = `Job ${number} goes to ${engine}, with ${counted(packets, "packet")}.`;
  return `${head} It is ${listed(fences)} from now on, and waits for ${unfinishedText(state, before) || "nothing"}.`;
}

function moveText(state, [name, memory, number, left]) {
  const buffer = state.buffer(name);
  const pages = buffer.declared.pages === 1 ? "the page" : `the ${buffer.declared.pages} pages`;
  const way = `from ${standing(buffer)} to ${MEMORY_NAMES[memory]} ${spansText(buffer.targets[memory])}`;
  const head = `Job ${number} of the move engine will copy ${pages} of ${name} ${way}, where ${name} stands from now on.`;
  const fence = "the job is the move fence, and whoever takes pages of VRAM before it is done waits for it";
  const kept = `the old pages${buffer.memory === "tt" ? " and frames" : ""}`;
  const old = left === "now" ? `An eviction needs the old pages, so they are free at once: ${fence}.` : `Ghost ${left} keeps ${kept} until the job is done.`;
  const waits = unfinishedText(state, buffer.fences);
  return `${head} ${old}${waits ? ` The job waits for ${waits}.` : ""}`;
}
