// The debts of a bank as tables: what it owes, each claim of which can be changed, and what it is owed.
import { bankButton } from "./bankbutton.mjs";
import { make } from "./elements.mjs";
import { faultPlace } from "./fields.mjs";
import { number } from "./texts.mjs";

const CLAIM_SIGNS = 9; // the width of the field of a claim

/**
 * A debt of a bank or to it: its key, the other bank, its class, its claim and what is paid of it, in units.
 * @typedef {{key: number, other: number, rank: number, claim: number, paid: number}} Debt
 */

/**
 * A debt as the server has it, with names.
 * @param {number[]} list
 * @returns {Debt}
 */
export const debtOf = ([key, other, rank, claim, paid]) => ({ key, other, rank, claim, paid });

/** A table in a frame: its columns are words, and whether they are of text. */
const table = (id, caption, columns, rows) => {
  const kind = ({ isText }) => (isText ? "text" : null);
  const heads = columns.map((column) => make("th", { scope: "col", class: kind(column) }, column.words));
  const row = ([first, ...cells]) => make("tr", {},
    make("th", { scope: "row", class: kind(columns[0]) }, first),
    ...cells.map((cell, at) => make("td", { class: kind(columns[at + 1]) }, cell)),
  );
  return make("div", { class: "scroll" },
    make("table", { id },
      make("caption", {}, caption),
      make("thead", {}, make("tr", {}, ...heads)),
      make("tbody", {}, ...rows.map(row)),
    ),
  );
};

const columnsOf = (last) => [
  { words: "Bank", isText: true },
  { words: "Class" },
  { words: "Claim" },
  { words: "Paid" },
  last,
];

/** The field of a claim, with its fault. */
const claimField = (desk, { key, other, rank, claim }) => {
  const id = `claim-${key}`;
  const change = (event) => desk.change({ set: "claim", debt: key, value: event.target.value }, id);
  return make("span", {},
    make("input", {
      type: "text",
      inputmode: "numeric",
      id,
      value: claim,
      size: CLAIM_SIGNS,
      autocomplete: "off",
      "aria-label": `claim of ${desk.name(other)} in class ${rank}`,
      "aria-describedby": `${id}-fault`,
      change,
    }),
    faultPlace(id),
  );
};

/** A button that strikes a debt. */
const striker = (desk, { key, other, rank }) => make(
  "button",
  {
    type: "button",
    id: `strike-${key}`,
    "aria-label": `Strike the debt to ${desk.name(other)} in class ${rank}`,
    click: () => desk.change({ set: "strike", debt: key }, `claim-${key}`),
  },
  "Strike",
);

/**
 * What a bank owes banks, as a table in which it can be changed.
 * @param {import("./desk.mjs").Desk} desk
 * @param {Debt[]} debts
 * @returns {HTMLElement}
 */
export const owesTable = (desk, debts) => table(
  "owes",
  `What it owes banks${desk.inUnits}`,
  columnsOf({ words: "", isText: true }),
  debts.map((debt) => [
    bankButton(desk, debt.other),
    String(debt.rank),
    claimField(desk, debt),
    number(debt.paid),
    striker(desk, debt),
  ]),
);

/**
 * What banks owe a bank, as a table.
 * @param {import("./desk.mjs").Desk} desk
 * @param {Debt[]} debts
 * @returns {HTMLElement}
 */
export const owedTable = (desk, debts) => table(
  "owed",
  `What banks owe it${desk.inUnits}`,
  columnsOf({ words: "Unpaid" }),
  debts.map(({ other, rank, claim, paid }) => [
    bankButton(desk, other),
    String(rank),
    number(claim),
    number(paid),
    number(claim - paid),
  ]),
);
