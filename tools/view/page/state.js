"use strict";
// The state that a journal leads to, entry by entry: section 3 of docs/SPECIFICATION.md. `apply.js` has what entries change.
// That each entry can be followed was checked before the page was written.

const MEMORIES = ["sys", "tt", "vram"];
const MEMORY_NAMES = { sys: "SYSTEM", tt: "TT", vram: "VRAM" };
const PRIORITIES = 4;

/** Reads spans `F-L,F-L` or `-` into pairs. */
function readSpans(word) {
  return word === "-" ? [] : word.split(",").map((span) => span.split("-").map(Number));
}

/** The state after `number` entries. */
class State {
  constructor(script) {
    this.script = script;
    this.number = 0;
    this.age = 0;
    this.buffers = script.buffers.map((declared) => deadBuffer(declared));
    this.lists = MEMORIES.map(() => Array.from({ length: PRIORITIES }, () => []));
    this.jobs = Array.from({ length: script.engines + 1 }, () => new Map()); // the unfinished ones, by number
    this.ghosts = [];
    this.moveFence = 0;
    this.courses = script.threads.map((commands, index) => newCourse(index + 1, 0));
  }

  /** Returns a state that may be changed apart from this one. Page tables are shared until one of the two changes them. */
  copy() {
    const other = Object.create(State.prototype);
    Object.assign(other, this);
    other.age = State.ages += 1;
    this.age = State.ages += 1;
    other.buffers = this.buffers.map((buffer) => ({ ...buffer, targets: { ...buffer.targets } }));
    other.lists = this.lists.map((lists) => lists.map((members) => members.slice()));
    other.jobs = this.jobs.map((jobs) => new Map(Array.from(jobs, ([number, job]) => [number, { ...job }])));
    other.ghosts = this.ghosts.slice();
    other.courses = this.courses.map((course) => ({ ...course }));
    return other;
  }

  /** Follows one line of the journal without its number: an actor, a kind, and its words. */
  apply(line) {
    const [actor, kind, ...words] = line.split(" ");
    const course = actor[0] === "t" ? this.courses[actor.slice(1) - 1] : null;
    APPLY[kind](this, words, course, Number(actor.slice(1)));
    this.number += 1;
  }

  buffer(name) {
    return this.buffers[this.script.byName.get(name)];
  }

  /** Returns the command that a thread is at, or undefined where each is answered. */
  commandOf(course) {
    return this.script.threads[course.thread - 1][course.answered];
  }

  isDone(job) {
    return !this.jobs[job.engine].has(job.number);
  }

  unfinished(fences) {
    return fences.filter((fence) => !this.isDone(fence));
  }

  /** Returns the page table of a buffer for a change. */
  table(buffer) {
    if (buffer.age !== this.age) {
      buffer.frames = buffer.frames.slice();
      buffer.slots = buffer.slots.slice();
      buffer.age = this.age;
    }
    return buffer;
  }

  listOf(buffer) {
    return this.lists[MEMORIES.indexOf(buffer.memory)][buffer.declared.priority];
  }

  takeOff(buffer) {
    const members = this.listOf(buffer);
    const at = members.indexOf(buffer.declared.index);
    if (at >= 0) members.splice(at, 1);
  }

  /** Places a live buffer without pins on its list: after the last member of its group there, or at the end. */
  putOn(buffer) {
    if (!buffer.live || buffer.pins) return;
    const members = this.listOf(buffer);
    const group = buffer.declared.group;
    const last = group === null ? -1 : members.findLastIndex((index) => this.buffers[index].declared.group === group);
    members.splice(last < 0 ? members.length : last + 1, 0, buffer.declared.index);
  }

  touch(buffer) {
    this.takeOff(buffer);
    this.putOn(buffer);
  }

  /** Puts a buffer into another memory type, and on its list there. */
  stand(buffer, memory, spans) {
    this.takeOff(buffer);
    buffer.memory = memory;
    buffer.spans = spans;
    this.putOn(buffer);
  }

  addFence(buffer, job, usage) {
    const others = this.unfinished(buffer.fences).filter((one) => one.engine !== job.engine || one.number !== job.number);
    buffer.fences = [...others, { engine: job.engine, number: job.number, usage }];
  }

  /** Returns the last unfinished job of each engine among fences. An engine does its jobs in order, so all are done where these are. */
  lastUnfinished(fences) {
    const last = new Map();
    for (const fence of this.unfinished(fences)) {
      if (!last.has(fence.engine) || last.get(fence.engine).number < fence.number) last.set(fence.engine, fence);
    }
    return Array.from(last.values());
  }

  /** Emits a job of an engine that waits for the unfinished ones among `fences`. */
  emit(engine, number, packets, fences, label) {
    const job = { engine, number, packets, ran: 0, waits: this.lastUnfinished(fences), label };
    this.jobs[engine].set(number, job);
    return job;
  }

  /** Leaves what a buffer has to a new ghost, until jobs are done. */
  leave(buffer, number, frames, jobs) {
    const { memory, spans, declared } = buffer;
    this.ghosts.push({ number: Number(number), of: declared.index, memory, spans, frames, jobs });
  }

  release(course) {
    for (const index of course.held) this.buffers[index].holder = 0;
  }

  answer(course) {
    this.courses[course.thread - 1] = newCourse(course.thread, course.answered + 1);
  }

  letGo(course, buffer) {
    buffer.holder = 0;
    course.caught = course.caught.filter((victim) => victim.index !== buffer.declared.index);
  }

  /** Notes that the search or the filling for a buffer has failed. */
  fail(course, buffer, why) {
    const victim = course.caught.find((one) => one.index === buffer.declared.index);
    if (victim) course.caught = course.caught.map((one) => (one === victim ? { ...one, fail: why } : one));
    else course.fail = why;
  }
}
State.ages = 0;

function deadBuffer(declared) {
  const nothing = new Int32Array(0);
  const table = { frames: nothing, slots: nothing, age: -1 };
  return { declared, live: false, memory: "sys", spans: [], ...table, targets: {}, pins: 0, holder: 0, fences: [] };
}

function newCourse(thread, answered) {
  return { thread, answered, stamp: 0, held: [], first: null, caught: [], skips: [], fail: "" };
}

/** Returns the frames of a buffer's page table. */
function framesOf(buffer) {
  return Array.from(buffer.frames).filter((frame) => frame >= 0);
}
