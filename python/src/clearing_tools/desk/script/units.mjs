// Banks that one unit decides: they are in another state, or begin or cease to keep anything, where a unit is worth
// twice or half as much. The question is asked once a state stands still, and what it says is marked wherever a figure
// of such a bank is shown.
import { follow, post } from "./ask.mjs";
import { by, make } from "./elements.mjs";
import { listed } from "./sentences.mjs";
import { many } from "./texts.mjs";

export const MARK = "≈";
const MOST_NAMES = 12; // of banks that are told one by one
const STILL = 500; // milliseconds without another state

const keyOf = (view) => (view.case ? `case-${view.case}` : `state-${view.id}`);

/** What is known of the banks that one unit decides, and the questions that go on. */
export class Units {
  /** @param {import("./desk.mjs").Desk} desk */
  constructor(desk) {
    this.desk = desk;
    this.decided = new Map(); // the banks of each state that was asked about
    this.waiting = null; // the time at which it is asked
    this.going = new Set(); // questions that go on
  }

  /** The states that are shown. */
  get shown() {
    const { view, against, isSame } = this.desk;
    return isSame ? [view] : [view, against];
  }

  /**
   * Whether one unit decides a bank in the state at hand, or in the one that it is held against.
   * @param {number} bank
   * @returns {boolean}
   */
  decides(bank) {
    const { view, against } = this.desk;
    return [view, against].some((one) => this.decided.get(keyOf(one))?.includes(bank));
  }

  /**
   * What stands behind the name or a figure of a bank: the mark where one unit decides it.
   * @param {number} bank
   * @returns {string}
   */
  markOf(bank) {
    return this.decides(bank) ? ` ${MARK}` : "";
  }

  /**
   * The same as an element, with what it means where it is pointed at; nothing where one unit does not decide.
   * @param {number} bank
   * @returns {HTMLElement | null}
   */
  markElement(bank) {
    return this.decides(bank) ? make("span", { class: "decided", title: "One unit decides" }, ` ${MARK}`) : null;
  }

  /** Asks no more: another state is on its way, which is not to wait for it. */
  leave() {
    clearTimeout(this.waiting);
    for (const question of this.going) post("stop", { question });
  }

  /** Asks for the states that are shown, once they stand still. */
  ask() {
    clearTimeout(this.waiting);
    this.waiting = setTimeout(() => this.shown.forEach((view) => this.askOne(view)), STILL);
  }

  /** Asks for a state, unless it was asked for, and marks its banks. */
  async askOne(view) {
    const key = keyOf(view);
    if (this.decided.has(key)) return;
    this.decided.set(key, []);
    const banks = await this.found(view);
    if (banks === null) {
      this.decided.delete(key);
      return;
    }
    this.decided.set(key, banks);
    if (banks.length && this.shown.some((one) => keyOf(one) === key)) this.desk.showAgain();
  }

  /** The banks of a state that one unit decides; nothing where the question fails or is left. */
  async found(view) {
    const state = view.case ? { case: view.case } : { state: view.id };
    const { value } = await post("ask", { what: "unit", ...state });
    if (!value) return null;
    let banks = [];
    this.going.add(value.question);
    const ended = await follow(value.question, (piece) => {
      banks = piece.banks;
    });
    this.going.delete(value.question);
    if (ended.fault || ended.stopped) return null;
    return view.case ? banks.map((bank) => view.bankOf(bank)).filter((bank) => bank !== undefined) : banks;
  }

  /** Says once what the mark means, where any bank has it. */
  show() {
    const { network } = this.desk;
    const banks = network.names.map((_, bank) => bank).filter((bank) => this.decides(bank));
    const names = banks.length > MOST_NAMES
      ? many(banks.length, "bank")
      : listed(banks.map((bank) => this.desk.name(bank)), MOST_NAMES);
    by("decided").textContent = banks.length
      ? `${MARK} One unit decides ${names}: where a unit is worth twice or half as much, such a bank is in another `
        + "state, or begins or ceases to keep anything. What is said of it is within the rounding of a unit."
      : "";
  }
}
