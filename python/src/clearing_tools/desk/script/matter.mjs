// What the pictures show of a state against another: a value for each bank, and the debts between banks.
import { unpaidOf } from "./compare.mjs";
import { eachFlow, flowsOf } from "./pairs.mjs";

const unpaidList = (view) => view.state.map((_, bank) => unpaidOf(view, bank));

/** What the pictures show. Lists are over the banks, amounts in units of account. */
export class Matter {
  /** @param {import("./context.mjs").Context} context */
  constructor({ view, against, network, pairs, isSame }) {
    this.isSame = isSame;
    this.names = network.shown;
    this.states = view.state;
    this.was = against.state; // the states before
    this.now = unpaidList(view); // what is unpaid
    this.before = unpaidList(against);
    this.more = isSame ? this.now : this.now.map((units, bank) => units - this.before[bank]);
    this.pairs = pairs;
    this.sums = [pairs.sumsOf(against), pairs.sumsOf(view)];
    this.held = null; // the debts as a list, once they were asked for
  }

  /**
   * Goes over the debts between banks.
   * @param {(debtor: number, creditor: number, claim: number, paid: number, more: number) => void} take as in `pairs`
   */
  each(take) {
    const [before, now] = this.sums;
    eachFlow(this.pairs, before, now, this.isSame, take);
  }

  /**
   * The debts between banks.
   * @returns {import("./pairs.mjs").Flow[]}
   */
  get flows() {
    const [before, now] = this.sums;
    this.held ??= flowsOf(this.pairs, before, now, this.isSame);
    return this.held;
  }

  /** Whether any debt is unpaid less than before. */
  get hasLess() {
    let isFound = false;
    this.each((_debtor, _creditor, _claim, _paid, more) => {
      isFound ||= more < 0;
    });
    return isFound;
  }

  /**
   * Whether a bank is sound in one state and not in the other; not where the other case has no such bank.
   * @param {number} bank
   * @returns {boolean}
   */
  isTurned(bank) {
    const [was, is] = [this.was[bank], this.states[bank]];
    return !this.isSame && was !== "absent" && (was === "sound") !== (is === "sound");
  }
}
