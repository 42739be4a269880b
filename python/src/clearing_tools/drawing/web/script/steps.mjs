// What the player says of a step: which raises it has, and what its debtor then had.
import { debtAt, stepOf } from "./ledger.mjs";
import { apart, many, number } from "./texts.mjs";

/**
 * What is said of a step: a sentence, and the line of the journal where it is one raise.
 * @typedef {{raise: string, line: string}} Words
 */

/** A step of several raises; `place` says which step it is, and `sum` by how much is paid more. */
const raisesWords = ({ lines, stamps, raises }, place, sum) => {
  const [low, high] = stamps;
  const stamped = low === high ? `stamp ${low}` : `stamps ${low} to ${high}`;
  return (
    `Step ${place}: ${many(raises, "raise")} of ${stamped}, lines ${lines[0]} to ${lines[1]} of the journal, `
    + `by ${sum} in all.`
  );
};

/** A step of one raise. */
const raiseWords = ({ journal, amounts, ledger }, { stamps, changes }, place) => {
  const [[debt, to]] = changes;
  const { debtor, creditor, rank, claim } = debtAt(journal, debt);
  const name = (bank) => apart(journal.full[bank] || journal.names[bank]);
  const outside = journal.outside[debtor]
    ? `, of which ${amounts.money(journal.outside[debtor])} owed outside comes first`
    : "";
  return (
    `Raise ${place}, stamp ${stamps[0]}: ${name(debtor)} has now paid ${name(creditor)} ${amounts.money(to)} `
    + `of ${amounts.money(claim)} in class ${rank}. ${name(debtor)} then had ${amounts.money(ledger.has(debtor))}`
    + `${outside}.`
  );
};

/** The line of the journal that a raise is. */
const lineWords = (journal, { lines, stamps, changes }) => {
  const [[debt, to]] = changes;
  const { debtor, creditor, rank } = debtAt(journal, debt);
  return `line ${lines[1]}: ${stamps[0]},${journal.names[debtor]},${journal.names[creditor]},${rank},${to}`;
};

/**
 * What is said after so many steps.
 * @param {import("./player.mjs").Player} player
 * @param {number} at how many steps are taken
 * @returns {Words}
 */
export const wordsOf = (player, at) => {
  if (at === 0) return { raise: "Nothing is paid yet.", line: "" };
  const { journal, amounts, risen } = player;
  const { frames } = journal;
  const step = stepOf(frames[at - 1]);
  const place = `${number(at)} of ${number(frames.length)}`;
  const end = at === frames.length ? " Nobody can pay more." : "";
  const isOne = step.raises === 1;
  const raise = isOne
    ? raiseWords(player, step, place)
    : raisesWords(step, place, amounts.money(risen[at] - risen[at - 1]));
  return { raise: raise + end, line: isOne ? lineWords(journal, step) : "" };
};
