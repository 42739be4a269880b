// The list of what was changed against the files, each change with a way back.
import { bankButton } from "./bankbutton.mjs";
import { changedBanks } from "./changed.mjs";
import { by, make } from "./elements.mjs";
import { ended, listed } from "./sentences.mjs";

const FIELDS = { cash: "cash", rule: "rule", outside: "owed outside" };
const MOST_LOSSES = 40; // that are named

const text = (desk, value) => (typeof value === "number" ? desk.exactly(value) : value);

/** A button that takes a change back. */
const takeBack = (desk, change) => make("button", { type: "button", click: () => desk.change(change) }, "Take back");

/** What was changed of all banks: the scenario, what default keeps, the cut, and losses beside it. */
const linesOfAll = (desk) => {
  const { view, base, network } = desk;
  const losses = view.losses.map(([bank, amount]) => `${desk.name(bank)} ${desk.exactly(amount)}`);
  return [
    view.scenario ? ended(`Scenario: ${network.scenarios[view.scenario - 1].name}`) : "",
    view.keep === base.keep ? "" : `Default keeps ${view.keep} per mille of an estate.`,
    view.cut ? `All cash is cut by ${view.cut} per mille.` : "",
    losses.length ? `Beside the cut is lost: ${listed(losses, MOST_LOSSES)}.` : "",
  ].filter(Boolean).map((words) => make("li", {}, words));
};

/** What was changed of a bank. */
const lineOfBank = (desk, { bank, field, before, now }) => make("li", {},
  bankButton(desk, bank),
  `: ${FIELDS[field]} ${text(desk, now)} in place of ${text(desk, before)} `,
  takeBack(desk, { set: "bank", bank, field, value: String(before) }),
);

/** What was changed of a debt in words, and the change that takes it back. */
const changeOfDebt = (desk, key, before, now) => {
  if (before === null) return { words: `a debt of ${desk.exactly(now)} is added`, back: { set: "strike", debt: key } };
  if (now === null) {
    return { words: `the debt of ${desk.exactly(before)} is struck`, back: { set: "strike", debt: key, again: true } };
  }
  return {
    words: `the debt is ${desk.exactly(now)} in place of ${desk.exactly(before)}`,
    back: { set: "claim", debt: key, value: String(before) },
  };
};

const lineOfDebt = (desk, [key, debtor, creditor, rank, before, now]) => {
  const { words, back } = changeOfDebt(desk, key, before, now);
  return make("li", {},
    `${desk.name(debtor)} to ${desk.name(creditor)}, class ${rank}: ${words} `,
    takeBack(desk, back),
  );
};

/**
 * Shows what was changed.
 * @param {import("./desk.mjs").Desk} desk
 */
export const showChanges = (desk) => {
  const lines = [
    ...linesOfAll(desk),
    ...changedBanks(desk.base, desk.view).map((change) => lineOfBank(desk, change)),
    ...desk.view.changedDebts.map((debt) => lineOfDebt(desk, debt)),
  ];
  by("changes").replaceChildren(...(lines.length ? lines : [make("li", { class: "dim" }, "Nothing.")]));
};
