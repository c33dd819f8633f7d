"use strict";
// Seeks the state after any entry: it keeps copies of the state on the way, and follows the rest from the nearest one.

const MOST_COPIES = 256;
const LEAST_STEP = 64; // entries from one copy to the next

class Timeline {
  constructor(script, lines) {
    this.lines = lines;
    this.step = Math.max(LEAST_STEP, Math.ceil(lines.length / MOST_COPIES));
    this.copies = [new State(script)];
    this.current = this.copies[0].copy();
  }

  /** Returns the state after `number` entries. It is the one that the next call changes. */
  at(number) {
    const from = Math.min(Math.floor(number / this.step), this.copies.length - 1);
    if (this.current.number > number || this.current.number < this.copies[from].number) {
      this.current = this.copies[from].copy();
    }
    while (this.current.number < number) this.advance();
    return this.current;
  }

  /** Follows one entry, and keeps a copy where one is due. */
  advance() {
    const state = this.current;
    state.apply(this.lines[state.number]);
    if (state.number === this.copies.length * this.step) this.copies.push(state.copy());
  }

  /** Follows up to `count` entries after the last copy; returns whether any are left. Seeking is quick once none are. */
  prepare(count) {
    const shown = this.current.number;
    const last = this.copies[this.copies.length - 1].number;
    this.at(Math.min(last + count, this.lines.length));
    const isLeft = this.current.number < this.lines.length;
    this.at(shown);
    return isLeft;
  }
}
