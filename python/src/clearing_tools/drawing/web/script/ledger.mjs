// What is paid after some steps of a journal: on each debt, by each bank and to it, and on each flow of the picture.

/**
 * A step of the journal: its first and last line, its least and greatest stamp, how many raises it has, and the debts
 * that change, each by its place and followed by what is then paid on it.
 * @typedef {[number, number, number, number, number, number[]]} Frame
 */

/**
 * What the page has of a journal. Banks and flows are told by their places; amounts are units of account.
 * @typedef {Object} Journal
 * @property {string[]} names what the banks are called in the files
 * @property {Object<number, string>} full the full names of those that have one
 * @property {number[]} cash of each bank
 * @property {number[]} owed what each bank owes banks
 * @property {number[]} outside what each bank owes outside
 * @property {number[]} outsideFlow the flow of what each bank owes outside, or -1
 * @property {number[]} debts debtor, creditor, class and claim of each debt, one behind the other
 * @property {number[]} flowOf the flow of each debt
 * @property {[number, number, number, number][]} flows debtor, creditor, claim and what is paid at the end
 * @property {Frame[] | null} frames the steps; nothing where there is no journal
 * @property {number} mostUnpaid what the widest flow stands for
 * @property {[number, number]} widths the least and the greatest width of a flow that is unpaid, in pixels
 */

/**
 * The same with names: the lines and the stamps from the first to the last, and the debts that change with what is
 * then paid on each, in units.
 * @typedef {{lines: [number, number], stamps: [number, number], raises: number, changes: [number, number][]}} Step
 */

/**
 * A debt of a journal: the places of its banks, its class, and its claim in units.
 * @typedef {{debtor: number, creditor: number, rank: number, claim: number}} Debt
 */

const FIELDS = 4; // of each debt in the one list of all

/**
 * A debt by its place.
 * @param {Journal} journal
 * @param {number} place
 * @returns {Debt}
 */
export const debtAt = (journal, place) => {
  const [debtor, creditor, rank, claim] = journal.debts.slice(FIELDS * place, FIELDS * (place + 1));
  return { debtor, creditor, rank, claim };
};

/**
 * A step of the journal.
 * @param {Frame} frame
 * @returns {Step}
 */
export const stepOf = ([first, last, low, high, raises, list]) => {
  /** @type {[number, number][]} */
  const changes = [];
  for (let at = 0; at < list.length; at += 2) changes.push([list[at], list[at + 1]]);
  return { lines: [first, last], stamps: [low, high], raises, changes };
};

/**
 * The sum of some amounts.
 * @param {number[]} amounts
 * @returns {number}
 */
export const sumOf = (amounts) => amounts.reduce((all, one) => all + one, 0);

/** What is paid after the steps so far. */
export class Ledger {
  /** @param {Journal} journal */
  constructor(journal) {
    this.journal = journal;
    this.reset();
  }

  /** Nothing is paid. */
  reset() {
    const { debts, names, flows } = this.journal;
    this.paid = new Array(debts.length / FIELDS).fill(0); // on each debt
    this.receipts = names.map(() => 0); // of each bank
    this.given = names.map(() => 0); // by each bank, to banks
    this.paidOn = flows.map(() => 0); // on each flow
  }

  /**
   * Takes a step.
   * @param {Frame} frame
   */
  apply(frame) {
    for (const [debt, to] of stepOf(frame).changes) this.raise(debt, to);
  }

  /**
   * Raises what is paid on a debt.
   * @param {number} place of the debt
   * @param {number} to units that are then paid on it
   */
  raise(place, to) {
    const { debtor, creditor } = debtAt(this.journal, place);
    const more = to - this.paid[place];
    this.paid[place] += more;
    this.given[debtor] += more;
    this.receipts[creditor] += more;
    this.paidOn[this.journal.flowOf[place]] += more;
  }

  /**
   * What a bank has: its cash and its receipts.
   * @param {number} bank
   * @returns {number} units
   */
  has(bank) {
    return this.journal.cash[bank] + this.receipts[bank];
  }

  /** What is paid from bank to bank in all, in units. */
  get total() {
    return sumOf(this.given);
  }

  /** Settles what is paid outside, which comes first, on the flows that stand for it. */
  payOutside() {
    const { outside, outsideFlow } = this.journal;
    for (const flow of outsideFlow) {
      if (flow >= 0) this.paidOn[flow] = 0;
    }
    outsideFlow.forEach((flow, bank) => {
      if (flow >= 0) this.paidOn[flow] += Math.min(outside[bank], this.has(bank));
    });
  }
}
