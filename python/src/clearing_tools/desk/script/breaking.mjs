// At which cut of all cash each bank falls: what is known of it for each state, the question, and what is said of it.
import { by } from "./elements.mjs";
import { ask } from "./questions.mjs";
import { number } from "./texts.mjs";

export const MOST = 1000; // per mille: a cut of all cash

/**
 * At which cut a bank falls, per mille: nothing where it falls at none; and whether that is the last word.
 * @typedef {{bank: number, cut: number | null, isSure: boolean}} Fall
 */

/** What is known of the cuts at which the banks of a state fall. */
class Known {
  /** @param {number} count of banks */
  constructor(count) {
    this.exact = new Map(); // the least cut of each bank, and its label then
    this.high = Array(count).fill(null); // at which cut each has fallen, above the greatest where at none
    this.isWhole = false;
    this.isAsked = false;
  }

  /** Takes a piece of the answer. */
  take({ kind, high, exact }) {
    if (kind === "between") this.high = high;
    for (const [bank, cut, label] of exact) this.exact.set(bank, { cut, label });
  }

  /**
   * The cut at which a bank falls, as far as it is known.
   * @param {number} bank
   * @returns {Fall | null}
   */
  fallOf(bank) {
    if (this.exact.has(bank)) return { bank, cut: this.exact.get(bank).cut, isSure: true };
    const high = this.high[bank];
    return high === null ? null : { bank, cut: high > MOST ? null : high, isSure: false };
  }

  /**
   * The banks that fall at some cut, the least cut first.
   * @returns {Fall[]}
   */
  get falls() {
    return this.high
      .map((_, bank) => this.fallOf(bank))
      .filter((fall) => fall && fall.cut !== null)
      .sort((one, other) => one.cut - other.cut);
  }

  /** Whether each bank's cut is known to the last. */
  get isExact() {
    return this.isWhole || this.exact.size === this.high.length;
  }
}

/** The cuts at which banks fall, by all of a state but its cut. */
export class Breaking {
  /** @param {import("./desk.mjs").Desk} desk */
  constructor(desk) {
    this.desk = desk;
    this.byKey = new Map();
    this.keys = new WeakMap(); // of the states
  }

  /** All of a state that decides at which cuts its banks fall. */
  keyOf(view) {
    if (!this.keys.has(view)) {
      const { losses, cash, rule, outside, changedDebts } = view;
      this.keys.set(view, JSON.stringify([losses, cash, rule, outside, changedDebts]));
    }
    return this.keys.get(view);
  }

  /**
   * What is known for a state.
   * @param {import("./compare.mjs").State} view
   * @returns {Known}
   */
  known(view) {
    return this.byKey.get(this.keyOf(view)) ?? new Known(view.state.length);
  }

  /**
   * Asks for the state at hand, unless it was asked for; what comes is shown piece by piece.
   * @param {(known: Known) => void} show
   */
  async ask(show) {
    const { view } = this.desk;
    const key = this.keyOf(view);
    const known = this.known(view);
    if (this.byKey.has(key) && (known.isWhole || known.isAsked)) {
      show(known);
      return;
    }
    known.isAsked = true;
    this.byKey.set(key, known);
    by("ask-curve").hidden = true;
    const showIfAtHand = () => {
      if (this.keyOf(this.desk.view) === key) show(known);
    };
    const take = (piece) => {
      known.take(piece);
      showIfAtHand();
    };
    const ended = await ask({ what: "breaking", state: view.id, shown: by("curve-told"), take });
    known.isAsked = false;
    known.isWhole = ended !== null && !ended.fault && !ended.stopped && ended.ended;
    showIfAtHand();
    if (this.keyOf(this.desk.view) === key) by("ask-curve").hidden = known.isWhole;
  }

  /**
   * What is said of the cut at which a bank falls.
   * @param {number} bank
   * @returns {string}
   */
  words(bank) {
    const { view } = this.desk;
    const known = this.known(view);
    const fall = known.fallOf(bank);
    if (!fall) return "";
    const of = view.cut ? " of the cash before this cut" : "";
    if (!fall.isSure) return `It falls at a cut of at most ${number(fall.cut ?? MOST)} per mille${of}.`;
    if (fall.cut === null) return "No cut of all cash breaks it.";
    if (fall.cut === 0) return "It is in default without a cut.";
    const label = known.exact.get(bank).label === "fundamental" ? "own fundamentals" : "contagion";
    return `It falls at a cut of ${number(fall.cut)} per mille${of} (label ${label}), and at none below.`;
  }

  /**
   * The banks that fall next above the cut of a state; nothing where it is not known.
   * @param {import("./compare.mjs").State} view
   * @returns {{cut: number | null, banks: number[]} | null} no cut where no bank falls
   */
  nextOf(view) {
    const known = this.known(view);
    if (!known.isWhole) return null;
    const above = [...known.exact].filter(([, { cut }]) => cut !== null && cut > view.cut);
    if (!above.length) return { cut: null, banks: [] };
    const least = Math.min(...above.map(([, { cut }]) => cut));
    return { cut: least, banks: above.filter(([, { cut }]) => cut === least).map(([bank]) => bank) };
  }
}
