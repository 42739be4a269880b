// The way through the states: what was done, what is undone, and what can be done again.

/** The states one after another, by their numbers, and which of them is at hand. */
export class Line {
  /** @param {number[]} states from the first to the one at hand */
  constructor(states) {
    this.states = [...states];
    this.at = this.states.length - 1;
  }

  /** The state at hand. */
  get now() {
    return this.states[this.at];
  }

  /** The state before it, or nothing. */
  get before() {
    return this.states[this.at - 1];
  }

  /** The state that was undone last, or nothing. */
  get after() {
    return this.states[this.at + 1];
  }

  /**
   * Goes on to a state; what was undone is gone.
   * @param {number} state
   * @param {boolean} [instead] whether it takes the place of the one at hand, as while a slider moves
   */
  go(state, instead = false) {
    if (state === this.now) return;
    this.states.length = this.at + (instead && this.at ? 0 : 1);
    if (this.states.at(-1) !== state) this.states.push(state);
    this.at = this.states.length - 1;
  }

  /**
   * Steps back.
   * @returns {number} the state that is then at hand
   */
  undo() {
    if (this.at) this.at -= 1;
    return this.now;
  }

  /**
   * Steps on again.
   * @returns {number} the state that is then at hand
   */
  redo() {
    if (this.at < this.states.length - 1) this.at += 1;
    return this.now;
  }
}
