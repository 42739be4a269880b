// The blocks of the matrix: banks by their groups or their size, and the sums of the debts from block to block.
import { number } from "./texts.mjs";

const MOST_ROWS = 20; // blocks, or single banks, on a side

/**
 * Banks that stand together: the name of their group, nothing where they stand together by their size.
 * @typedef {{name: string | null, banks: number[]}} Block
 */

/**
 * Where the matrix is opened: the banks of its rows and of its columns (nothing is all), words for them, and their
 * blocks, once they were shown.
 * @typedef {{rows: number[] | null, columns: number[] | null, words: string, blocks?: [Block[], Block[]]}} Step
 */

/**
 * The sums of the debts of a cell, in units: its row, its column, claims, what is unpaid, by how much that is more, and
 * how many pairs of banks it has.
 * @typedef {{down: number, right: number, claim: number, unpaid: number, more: number, count: number}} Sum
 */

/** Blocks of banks by their size, from those that owe most. */
const bySize = (banks, owed) => {
  const ordered = [...banks].sort((one, other) => owed[other] - owed[one] || one - other);
  const count = Math.min(MOST_ROWS, ordered.length);
  const end = (at) => Math.round(at * ordered.length / count);
  return Array.from({ length: count }, (_, at) => ({ name: null, banks: ordered.slice(end(at), end(at + 1)) }));
};

/**
 * The blocks of some banks: by their groups where they have some, else by size.
 * @param {number[]} banks
 * @param {string[]} groups of all banks
 * @param {number[]} owed what each bank owes, in units
 * @returns {Block[]}
 */
export const blocksOf = (banks, groups, owed) => {
  const named = new Set(banks.map((bank) => groups[bank]));
  if (named.size < 2 || named.size > MOST_ROWS) return bySize(banks, owed);
  return [...named].sort().map((group) => ({
    name: group || "no group",
    banks: banks.filter((bank) => groups[bank] === group),
  }));
};

const ORDINALS = ["th", "st", "nd", "rd"];
const ordinal = (count) => {
  const isTeen = count % 100 > 10 && count % 100 < 14;
  return `${number(count)}${isTeen ? "th" : ORDINALS[count % 10] ?? "th"}`;
};

/**
 * What blocks are called: by their groups, their one bank, or the ranks of their banks by size.
 * @param {Block[]} blocks
 * @param {string[]} names of all banks
 * @returns {{whole: string, short: string}[]} in whole, and as short as can be
 */
export const calledIn = (blocks, names) => {
  let rank = 1;
  return blocks.map(({ name, banks }) => {
    const last = rank + banks.length - 1;
    const called = banks.length === 1 ? names[banks[0]] : name;
    const whole = called ?? `${ordinal(rank)} to ${ordinal(last)}`;
    const short = called ?? `${number(rank)}–${number(last)}`;
    rank = last + 1;
    return { whole, short };
  });
};

/** The place among some blocks of each bank, −1 of one that is in none. */
const placesIn = (count, blocks) => {
  const found = new Int32Array(count).fill(-1);
  blocks.forEach(({ banks }, at) => {
    for (const bank of banks) found[bank] = at;
  });
  return found;
};

/**
 * The sums of the cells that have some debts.
 * @param {import("./matter.mjs").Matter} matter
 * @param {Block[]} rows
 * @param {Block[]} columns
 * @returns {Sum[]}
 */
export const sumsOf = (matter, rows, columns) => {
  const row = placesIn(matter.names.length, rows);
  const column = placesIn(matter.names.length, columns);
  /** @type {Sum[]} */
  const found = [];
  matter.each((debtor, creditor, claim, paid, more) => {
    const down = row[debtor];
    const right = column[creditor];
    if (down < 0 || right < 0) return;
    const sum = found[down * columns.length + right] ??= { down, right, claim: 0, unpaid: 0, more: 0, count: 0 };
    sum.claim += claim;
    sum.unpaid += claim - paid;
    sum.more += more;
    sum.count += 1;
  });
  return found.filter(Boolean);
};
