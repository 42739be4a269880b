// The state of another case, as one over the banks of this: what states can be held against.
import { apart } from "./texts.mjs";

const AMOUNTS = ["cash", "outside", "left", "owed", "estate", "lost", "paid", "outsidePaid", "equity"];

/**
 * A state of another case, with what leads from its banks to those of this.
 * @typedef {Object} Beside
 * @property {number} case its place from 1 on
 * @property {(bank: number) => number | undefined} bankOf the bank here that one there is, where it is here
 * @property {(bank: number) => number | null} placeOf the bank there that one here is, where it is there
 * @property {string[]} onlyThere the names of the banks that it has alone
 */

/**
 * A state, of this case or of another.
 * @typedef {import("./compare.mjs").State & Partial<Beside>} Held
 */

/**
 * A state of another case as a list over this case's banks, by their names.
 * @param {import("./compare.mjs").State} view
 * @param {string[]} names of this case's banks
 * @param {string[]} others the names of its own banks
 * @returns {import("./compare.mjs").State}
 */
export const aligned = (view, names, others) => {
  const place = new Map(others.map((name, at) => [name, at]));
  const from = names.map((name) => place.get(name) ?? -1);
  const list = (key, none) => from.map((at) => (at < 0 ? none : view[key][at]));
  return {
    ...view,
    state: list("state", "absent"),
    rule: list("rule", ""),
    ...Object.fromEntries(AMOUNTS.map((key) => [key, list(key, 0)])),
    greatest: null,
  };
};

/** The debts of another case between banks that are here: the place of their pair, the claim and what is paid. */
const debtsOf = (view, other, bankOf, pairs) => view.flows.flatMap((paid, key) => {
  const debtor = bankOf(other.debtors[key]);
  const creditor = bankOf(other.creditors[key]);
  return debtor === undefined || creditor === undefined
    ? []
    : [[pairs.place(debtor, creditor), other.claims[key], paid]];
});

/**
 * The state of another case, as one over the banks of this; its debts are added up over the pairs of banks.
 * @param {import("./compare.mjs").State} view
 * @param {number} at its place from 1 on
 * @param {import("./context.mjs").Network} network this case
 * @param {import("./pairs.mjs").Pairs} pairs
 * @returns {Held}
 */
export const fromCase = (view, at, network, pairs) => {
  const other = network.others[at - 1];
  const here = new Map(network.names.map((name, bank) => [name, bank]));
  const there = new Map(other.names.map((name, bank) => [name, bank]));
  const bankOf = (bank) => here.get(other.names[bank]);
  const held = {
    ...aligned(view, network.names, other.names),
    case: at,
    flows: [],
    keys: null,
    changedDebts: [],
    bankOf,
    placeOf: (bank) => there.get(network.names[bank]) ?? null,
    onlyThere: other.shown.filter((_, bank) => !here.has(other.names[bank])).map(apart),
  };
  pairs.hold(held, pairs.summed(debtsOf(view, other, bankOf, pairs)));
  return held;
};
