// Why a bank lacks something, as an account that adds up to the last unit: all its cash and all claims on others less
// what it owes, and what of that is gone in a state. It says no cause.
import { see } from "./ask.mjs";
import { number } from "./texts.mjs";

const AT_FIRST = 5; // debtors that have a line of their own
const ELSEWHERE = -1; // the debtors that the case held against has alone

/**
 * An account as the server has it, in units: what the bank would have with all cash and all debtors paying, less what
 * it owes banks; what of that is lost of its cash, owed outside and lost where default costs; of each debtor the claim
 * and what is paid of it; and what is left, below 0 what it lacks.
 * @typedef {Object} Account
 * @property {number} whole
 * @property {number} loss
 * @property {number} outside
 * @property {number} lost
 * @property {[number, number, number][]} unpaid debtor, claim, what is paid
 * @property {number} left
 */

/**
 * A line of an account: its words, what it was and is in units, the debtor where it is one's, and the lines that it
 * stands for.
 * @typedef {Object} Line
 * @property {string} [words]
 * @property {number | null} [was]
 * @property {number} is
 * @property {number} [debtor]
 * @property {Line[]} [rest]
 * @property {boolean} [isWhole]
 * @property {boolean} [isLack]
 */

/** The account of a bank in another case, with the banks of this. */
const accountThere = async (against, bank) => {
  const place = against.placeOf(bank);
  if (place === null) return null;
  const { value } = await see(`other/${against.case}/${place}`);
  if (!value) return null;
  const unpaid = value.account.unpaid.map(([debtor, ...rest]) => [against.bankOf(debtor) ?? ELSEWHERE, ...rest]);
  return { ...value.account, unpaid };
};

/**
 * The account of a bank in the state that is held against.
 * @param {import("./context.mjs").Context} context
 * @param {number} bank
 * @returns {Promise<Account | null>} nothing where the bank is not in that case
 */
export const accountAgainst = async ({ against }, bank) => {
  if (against.case) return accountThere(against, bank);
  return (await see(`bank/${against.id}/${bank}`)).value?.account ?? null;
};

/** What each debtor leaves unpaid, in units by its place; those that the other case alone has are one. */
const unpaidIn = (account) => {
  const found = new Map();
  for (const [debtor, claim, paid] of account?.unpaid ?? []) {
    found.set(debtor, (found.get(debtor) ?? 0) + claim - paid);
  }
  return found;
};

/** The lines of the debtors, those that leave most unpaid first, and then those that did. */
const debtorLines = (now, before) => {
  const is = unpaidIn(now);
  const was = unpaidIn(before);
  const [of, ofBefore] = [(debtor) => is.get(debtor) ?? 0, (debtor) => was.get(debtor) ?? 0];
  const debtors = [...new Set([...is.keys(), ...was.keys()])];
  debtors.sort((one, other) => (
    of(other) - of(one) || (of(one) ? 0 : ofBefore(other) - ofBefore(one)) || one - other
  ));
  return debtors.map((debtor) => ({
    ...(debtor === ELSEWHERE ? { words: "unpaid by banks of that case alone" } : { words: "unpaid by ", debtor }),
    was: before && -ofBefore(debtor),
    is: -of(debtor),
  }));
};

/** The line that stands for many debtors. */
const restLine = (rest, before) => {
  const sum = (key) => rest.reduce((all, one) => all + one[key], 0);
  return { words: `unpaid by ${number(rest.length)} others`, was: before && sum("was"), is: sum("is"), rest };
};

/**
 * The lines of an account in two states.
 * @param {Account} now
 * @param {Account | null} before
 * @returns {Line[]} they add up to what is left
 */
export const linesOf = (now, before) => {
  const line = (words, key, sign = -1) => ({ words, was: before && sign * before[key], is: sign * now[key] });
  const debtors = debtorLines(now, before);
  const rest = debtors.slice(AT_FIRST);
  return [
    { ...line("All its cash, and all debtors pay", "whole", 1), isWhole: true },
    line("loss of its cash", "loss"),
    ...debtors.slice(0, AT_FIRST),
    ...(rest.length ? [restLine(rest, before)] : []),
    line("debts outside", "outside"),
    ...(now.lost || before?.lost ? [line("costs of default", "lost")] : []),
  ];
};
