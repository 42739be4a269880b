// What is asked of a bank: what saves it, what its ruin costs, and at which cut it falls.
import { by, make } from "./elements.mjs";
import { askOne } from "./questions.mjs";
import { ended, listed } from "./sentences.mjs";
import { number } from "./texts.mjs";

const MOST_SAVED = 5, MOST_FALLEN = 8; // banks that are named

/** What saves a bank, in words. */
const rescueWords = (desk, piece, bank) => {
  const needs = (units) => (units ? `${desk.say(units)} more of cash lets it pay in full.` : "It needs none.");
  if (piece.kind === "one") return needs(piece.added);
  const own = piece.rows.find(([other]) => other === bank);
  const others = piece.rows.map(([other]) => other).filter((other) => other !== bank);
  const names = (banks, last) => listed(banks.map((other) => desk.short(other)), MOST_SAVED, last);
  const saves = own?.[2].length ? ` That saves ${names(own[2])} too.` : "";
  const instead = others.length ? ended(` So would the sum that saves ${names(others, "or")}`) : "";
  return `${needs(own?.[1] ?? 0)}${saves}${instead}`;
};

/** What the ruin of a bank costs, in words. */
const ruinWords = (desk, { cash, own, others, fallen }) => {
  const names = listed(fallen.map((bank) => desk.short(bank)), MOST_FALLEN);
  const falls = fallen.length ? ended(`${number(fallen.length)} more fall: ${names}`) : "no other bank falls.";
  return (
    `Where it loses all its cash, ${desk.say(cash)}, it keeps ${desk.say(own)} less `
    + `and others ${desk.say(others)} less; ${falls}`
  );
};

const ASKS = [
  { what: "rescue", title: "What saves it", words: rescueWords },
  { what: "ruin", title: "What its ruin costs", words: ruinWords },
];
const placeOf = (what) => `answer-${what}`;

/** A button that asks. */
const asker = (desk, bank, { what, title, words }) => {
  const say = (piece) => words(desk, piece, bank);
  const click = () => askOne(desk, what, bank, placeOf(what), say);
  return make("button", { type: "button", id: `ask-${what}`, click }, title);
};

/**
 * What is asked of a bank, with places for the answers.
 * @param {import("./desk.mjs").Desk} desk
 * @param {number} bank
 * @returns {HTMLElement}
 */
export const askPart = (desk, bank) => make("div", { id: "asks" },
  make("div", { class: "buttons" }, ...ASKS.map((one) => asker(desk, bank, one))),
  ...ASKS.map(({ what }) => make("p", { id: placeOf(what), class: "note", role: "status" })),
  make("p", { id: "breaks", class: "note" }, desk.breaking.words(bank)),
  desk.view.keep === desk.base.keep
    ? null
    : make("p", { class: "note" }, "These are asked of the clearing without costs of default."),
);

/**
 * The answers that are shown, so that they stay while the part of the bank is made anew.
 * @returns {{id: string, text: string, state: string | undefined}[]}
 */
export const answersShown = () => ASKS.map(({ what }) => {
  const place = by(placeOf(what));
  return { id: placeOf(what), text: place?.textContent ?? "", state: place?.dataset.state };
});

/**
 * Shows answers again that are of a state.
 * @param {{id: string, text: string, state: string | undefined}[]} answers
 * @param {{id: number}} view
 */
export const showAnswers = (answers, view) => {
  for (const { id, text, state } of answers) {
    if (state !== `${view.id}`) continue;
    by(id).textContent = text;
    by(id).dataset.state = state;
  }
};
