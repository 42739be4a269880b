// What was changed against the files, and whether the changes are a scenario.
import { listed } from "./sentences.mjs";

const OF_A_BANK = ["cash", "rule", "outside"]; // what can be changed of one

/**
 * A change of a bank: what of it, before and now.
 * @typedef {{bank: number, field: string, before: number | string, now: number | string}} BankChange
 */

/**
 * What was changed of the banks.
 * @param {import("./compare.mjs").State} before
 * @param {import("./compare.mjs").State} now
 * @returns {BankChange[]}
 */
export const changedBanks = (before, now) => now.state.flatMap((_, bank) => OF_A_BANK
  .filter((field) => before[field][bank] !== now[field][bank])
  .map((field) => ({ bank, field, before: before[field][bank], now: now[field][bank] })));

/**
 * Why the changes are no scenario, which takes cash and nothing else; nothing where nothing else is changed.
 * @param {import("./compare.mjs").State} before
 * @param {import("./compare.mjs").State} now
 * @returns {string}
 */
export const whyNoScenario = (before, now) => {
  const fields = new Set(changedBanks(before, now).map(({ field }) => field));
  /** @type {[string, boolean][]} */
  const reasons = [
    ["debts", now.changedDebts.length > 0],
    ["rules", fields.has("rule")],
    ["what is owed outside", fields.has("outside")],
    ["what default keeps", before.keep !== now.keep],
    ["cash that is more than before", now.left.some((units, bank) => units > before.left[bank])],
  ];
  const words = reasons.filter(([, holds]) => holds).map(([reason]) => reason);
  return words.length
    ? `No changes.toml: a scenario takes cash and nothing else, and changed here: ${listed(words)}.`
    : "";
};
