// A state against another: who falls or is saved, what each pays and keeps more or less. It adds and subtracts, and
// does nothing else.

/**
 * How the banks stand at payments that clear: a list over the banks for each thing, in file order. Amounts are units
 * of account.
 * @typedef {Object} End
 * @property {string[]} state sound, fundamental, contagion or gridlock; absent where another case has no such bank
 * @property {number[]} paid what each pays to banks
 * @property {number[]} outsidePaid what each pays outside
 * @property {number[]} equity what each keeps
 * @property {number[]} lost what of its estate is lost where default costs
 * @property {number[]} [estate] its cash and its receipts
 */

/**
 * What a state has beside that.
 * @typedef {Object} Changes
 * @property {number} id the number of the state
 * @property {number[]} line the states on the way to it, and itself
 * @property {number} cut what is cut of all cash, per mille
 * @property {number} keep what a bank in default keeps of its estate, per mille
 * @property {number} scenario its place from 1 on, 0 where none is chosen
 * @property {[number, number][]} losses what is lost beside the cut: banks and amounts
 * @property {number[]} cash of each bank, before the shock
 * @property {number[]} left of its cash after the shock
 * @property {number[]} owed what each owes banks
 * @property {number[]} outside what each owes outside
 * @property {string[]} rule by which each divides its estate
 * @property {End | null} greatest how the banks stand at the greatest payments, where default costs
 * @property {number[]} flows what is paid of each debt
 * @property {number[] | null} keys the keys of the debts, where they are not those of the files in order
 * @property {[number, number, number, number, number | null, number | null][]} changedDebts key, debtor, creditor,
 *   class, and the claim before and now, nothing where there is none
 * @property {boolean} isScenario whether the changes are a scenario
 */

/**
 * A state as the server has it.
 * @typedef {End & Changes} State
 */

/**
 * A bank in two states. Amounts are units of account; `More` is by how much that is more now.
 * @typedef {Object} Row
 * @property {number} bank
 * @property {string} was its state before
 * @property {string} is its state now
 * @property {number} unpaidBefore
 * @property {number} unpaid
 * @property {number} unpaidMore
 * @property {number} keepsBefore
 * @property {number} keeps
 * @property {number} keepsMore
 */

const SEVERITY = ["fundamental", "contagion", "gridlock", "sound", "absent"];

const isSound = (state) => state === "sound" || state === "absent";
const places = (view) => view.state.map((_, bank) => bank);
const sum = (values) => values.reduce((all, value) => all + value, 0);

/**
 * The banks that are in default now and were not before.
 * @param {End} before
 * @param {End} now
 * @returns {number[]}
 */
export const fallen = (before, now) => places(now).filter(
  (bank) => isSound(before.state[bank]) && !isSound(now.state[bank]),
);

/**
 * The banks that were in default before and are not now.
 * @param {End} before
 * @param {End} now
 * @returns {number[]}
 */
export const saved = (before, now) => places(now).filter(
  (bank) => !isSound(before.state[bank]) && isSound(now.state[bank]),
);

/**
 * All that a bank pays, outside and to banks.
 * @param {End} view
 * @param {number} bank
 * @returns {number} units
 */
export const paysOf = (view, bank) => view.paid[bank] + view.outsidePaid[bank];

/**
 * All that a bank owes, outside and to banks.
 * @param {State} view
 * @param {number} bank
 * @returns {number} units
 */
export const owesOf = (view, bank) => view.owed[bank] + view.outside[bank];

/**
 * All that a bank owes and leaves unpaid.
 * @param {State} view
 * @param {number} bank
 * @returns {number} units
 */
export const unpaidOf = (view, bank) => owesOf(view, bank) - paysOf(view, bank);

/**
 * The sums of a state: how many banks are in default, and amounts over all banks in units.
 * @param {State} view
 */
export const sums = (view) => {
  const pays = sum(places(view).map((bank) => paysOf(view, bank)));
  const owes = sum(places(view).map((bank) => owesOf(view, bank)));
  return {
    defaults: view.state.filter((state) => !isSound(state)).length,
    cash: sum(view.left),
    owes,
    pays,
    unpaid: owes - pays,
    keeps: sum(view.equity),
    lost: sum(view.lost),
  };
};

/**
 * A state at the greatest payments that clear, where default costs; nothing where it does not.
 * @param {State} view
 * @returns {State | null}
 */
export const atGreatest = (view) => (view.greatest ? { ...view, ...view.greatest, greatest: null } : null);

/**
 * The banks that are in default at the least payments that clear, and sound at the greatest.
 * @param {State} view
 * @returns {number[]}
 */
export const soundAtGreatest = (view) => (view.greatest ? saved(view, atGreatest(view)) : []);

/**
 * A row for each bank: how it stood and stands, and what of it is unpaid and kept.
 * @param {State} before
 * @param {State} now
 * @returns {Row[]}
 */
export const rows = (before, now) => places(now).map((bank) => ({
  bank,
  was: before.state[bank],
  is: now.state[bank],
  unpaidBefore: unpaidOf(before, bank),
  unpaid: unpaidOf(now, bank),
  unpaidMore: unpaidOf(now, bank) - unpaidOf(before, bank),
  keepsBefore: before.equity[bank],
  keeps: now.equity[bank],
  keepsMore: now.equity[bank] - before.equity[bank],
}));

/** What rows are sorted by, the least first. @type {Object<string, (row: Row) => number>} */
const ORDERS = {
  bank: (row) => row.bank,
  state: (row) => SEVERITY.indexOf(row.is),
  unpaidBefore: (row) => -row.unpaidBefore,
  unpaid: (row) => -row.unpaid,
  unpaidMore: (row) => -row.unpaidMore,
  keepsBefore: (row) => -row.keepsBefore,
  keeps: (row) => -row.keeps,
  keepsMore: (row) => row.keepsMore,
};

/**
 * Rows in an order. Of equal ones that with more of a difference comes first.
 * @param {Row[]} found
 * @param {string} key the column that says the order
 * @param {boolean} [isTurned] whether it goes from the far end
 * @returns {Row[]}
 */
export const sorted = (found, key, isTurned = false) => {
  const of = ORDERS[key];
  const sign = isTurned ? -1 : 1;
  return [...found].sort(
    (one, other) =>
      sign * (of(one) - of(other))
      || Math.abs(other.unpaidMore) - Math.abs(one.unpaidMore)
      || Math.abs(other.unpaid) - Math.abs(one.unpaid)
      || Math.abs(other.keepsMore) - Math.abs(one.keepsMore)
      || one.bank - other.bank,
  );
};

/**
 * Whether anything of a row is another than before.
 * @param {Row} row
 * @returns {boolean}
 */
export const differs = (row) => row.was !== row.is || row.unpaidMore !== 0 || row.keepsMore !== 0;
