"use strict";
// What each kind of entry changes: section 5 of docs/SPECIFICATION.md. A function gets the state, the entry's words, and the thread's course or
// the engine's number.

const APPLY = {
  ticket(state, [stamp], course) {
    course.stamp = Number(stamp);
  },
  reserve(state, [name], course) {
    const buffer = state.buffer(name);
    buffer.holder = course.stamp;
    course.held = [...course.held, buffer.declared.index];
  },
  backoff(state, [name], course) {
    state.release(course);
    course.held = [];
    course.first = state.buffer(name).declared.index;
  },
  new(state, [name]) {
    const buffer = state.buffer(name);
    const pages = buffer.declared.pages;
    const table = { frames: new Int32Array(pages).fill(-1), slots: new Int32Array(pages).fill(-1) };
    Object.assign(buffer, deadBuffer(buffer.declared), table, { live: true });
    state.putOn(buffer);
  },
  free(state, [name, number], course) {
    const buffer = state.buffer(name);
    if (Number(number)) state.leave(buffer, number, framesOf(buffer), state.unfinished(buffer.fences));
    state.takeOff(buffer);
    Object.assign(buffer, deadBuffer(buffer.declared));
    course.held = course.held.filter((index) => index !== buffer.declared.index);
  },
  take(state, [name, memory, spans]) {
    const buffer = state.buffer(name);
    buffer.targets[memory] = readSpans(spans);
    const fence = { engine: 0, number: state.moveFence };
    if (memory === "vram" && state.moveFence && !state.isDone(fence)) state.addFence(buffer, fence, "KERNEL");
  },
  untake(state, [name, memory]) {
    delete state.buffer(name).targets[memory];
  },
  populate(state, [name, page, frame]) {
    state.table(state.buffer(name)).frames[page] = frame;
  },
  swapin(state, [name, page, slot, frame]) {
    const buffer = state.table(state.buffer(name));
    buffer.frames[page] = frame;
    buffer.slots[page] = -1;
  },
  swapout(state, [name, page, slot]) {
    const buffer = state.table(state.buffer(name));
    buffer.frames[page] = -1;
    buffer.slots[page] = slot;
  },
  depopulate(state, [name]) {
    state.table(state.buffer(name)).frames.fill(-1);
  },
  bind(state, [name]) {
    const buffer = state.buffer(name);
    state.stand(buffer, "tt", buffer.targets.tt);
    delete buffer.targets.tt;
  },
  unbind(state, [name]) {
    const buffer = state.buffer(name);
    delete buffer.targets.sys;
    state.stand(buffer, "sys", []);
  },
  move(state, [name, memory, number, left]) {
    const buffer = state.buffer(name);
    const label = `${name} from ${MEMORY_NAMES[buffer.memory]} to ${MEMORY_NAMES[memory]}`;
    const job = state.emit(0, Number(number), buffer.declared.pages, buffer.fences, label);
    if (left === "now") {
      state.moveFence = job.number;
    } else {
      state.leave(buffer, left, buffer.memory === "tt" ? framesOf(buffer) : [], [job]);
    }
    if (buffer.memory === "tt") state.table(buffer).frames.fill(-1);
    state.addFence(buffer, job, "KERNEL");
    state.stand(buffer, memory, buffer.targets[memory]);
    delete buffer.targets[memory];
  },
  catch(state, [name, why], course) {
    const buffer = state.buffer(name);
    buffer.holder = course.stamp;
    if (buffer.memory === "tt") buffer.targets.sys = [];
    course.caught = [...course.caught, { index: buffer.declared.index, why, fail: "" }];
  },
  loose(state, [name], course) {
    const buffer = state.buffer(name);
    state.letGo(course, buffer);
    state.touch(buffer);
  },
  skip(state, [name], course) {
    const buffer = state.buffer(name);
    state.letGo(course, buffer);
    course.skips = [...course.skips, buffer.declared.index];
  },
  dry(state, [name, place], course) {
    const buffer = state.buffer(name);
    const isVictim = course.caught.some((victim) => victim.index === buffer.declared.index);
    if (isVictim || isLastPlace(state, course, buffer, Number(place))) state.fail(course, buffer, "NoSpace");
  },
  nopages(state, [name], course) {
    state.fail(course, state.buffer(name), "NoPages");
  },
  arm(state, [engine, number], course) {
    const command = state.commandOf(course);
    const uses = command.buffers.map((index) => [state.buffers[index], command.writes.includes(index) ? "WRITE" : "READ"]);
    const fences = uses.flatMap(([buffer, usage]) => buffer.fences.filter((fence) => usage === "WRITE" || fence.usage !== "READ"));
    const label = `t${course.thread} command ${course.answered + 1}`;
    const job = state.emit(Number(engine.slice(1)), Number(number), command.packets, fences, label);
    for (const [buffer, usage] of uses) state.addFence(buffer, job, usage);
  },
  packet(state, [number], course, engine) {
    state.jobs[engine].get(Number(number)).ran += 1;
  },
  done(state, [number], course, engine) {
    state.jobs[engine].delete(Number(number));
  },
  reap(state, [number]) {
    state.ghosts = state.ghosts.filter((ghost) => ghost.number !== Number(number));
  },
  bulk(state, [group]) {
    const isMember = (index) => state.buffers[index].declared.group === Number(group);
    state.lists = state.lists.map((lists) =>
      lists.map((members) => [...members.filter((index) => !isMember(index)), ...members.filter(isMember)]));
  },
  result(state, words, course) {
    const command = state.commandOf(course);
    state.release(course);
    if (command.verb === "pin" || command.verb === "unpin") {
      const buffer = state.buffers[command.buffers[0]];
      if (!buffer.pins) state.takeOff(buffer);
      buffer.pins += command.verb === "pin" ? 1 : -1;
    }
    for (const index of command.buffers) {
      if (course.held.includes(index) && !state.buffers[index].pins) state.touch(state.buffers[index]);
    }
    state.answer(course);
  },
  refused(state, words, course) {
    state.release(course);
    state.answer(course);
  },
};

/** Tells whether a dry place is the last that the search of a named buffer has. */
function isLastPlace(state, course, buffer, place) {
  const isHop = Object.keys(buffer.targets).length > 0;
  const verb = state.commandOf(course).verb;
  return isHop || verb === "move" || verb === "swapout" || place + 1 >= buffer.declared.forced;
}
