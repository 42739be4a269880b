// Questions that take time: they say how far they are, come in pieces, and can be stopped.
import { follow, post } from "./ask.mjs";
import { by, make } from "./elements.mjs";

const SLOW = 400; // milliseconds from which on it is said that a question goes on

/**
 * A question to the program, and what is done with its answer.
 * @typedef {Object} Question
 * @property {string} what breaking, rescue or ruin
 * @property {number} state the number of the state
 * @property {number} [bank] the bank, where it is of one
 * @property {HTMLElement} shown where it is said how far it is
 * @property {(piece: any) => void} take gets each piece as it comes
 * @property {() => boolean} [isWanted] whether to go on
 */

/** Says how far a question is, with a button that stops it. */
const progress = (question, { of, come, seconds }) => [
  make("progress", { max: of, value: come, "aria-label": "How far the question is" }),
  ` ${come} of ${of} ${of === 1 ? "piece" : "pieces"}, ${seconds.toFixed(1)} s `,
  make("button", { type: "button", class: "stops", click: () => post("stop", { question }) }, "Stop"),
];

/**
 * How a question ended, in words; nothing where all of it came.
 * @param {import("./ask.mjs").Told} told
 */
const endWords = ({ fault, stopped, come, of }) => (
  fault || (stopped ? `Stopped after ${come} of ${of} pieces.` : "")
);

/**
 * Asks a question, and follows it to its end.
 * @param {Question} question
 * @returns {Promise<import("./ask.mjs").Told | null>} how it ended; nothing where it was not taken
 */
export const ask = async ({ what, state, bank = null, shown, take, isWanted }) => {
  const began = performance.now();
  const { value, fault } = await post("ask", { state, what, bank });
  if (fault) {
    shown.textContent = fault.said;
    return null;
  }
  const tell = (told) => {
    if (!told.ended && performance.now() - began > SLOW) shown.replaceChildren(...progress(value.question, told));
  };
  const ended = await follow(value.question, take, tell, isWanted);
  if (ended.ended !== false) shown.textContent = endWords(ended);
  return ended;
};

/**
 * Asks a question on one bank of the state at hand, and says its answer, as far as it has come.
 * @param {import("./desk.mjs").Desk} desk
 * @param {string} what rescue or ruin
 * @param {number} bank
 * @param {string} id of the element that has the answer
 * @param {(piece: any) => string} say a piece in words
 */
export const askOne = async (desk, what, bank, id, say) => {
  const { view } = desk;
  const place = by(id);
  const shown = make("span");
  const text = make("span");
  place.replaceChildren("The program is asked. ", shown);
  let hasCome = false;
  const take = (piece) => {
    text.textContent = `${say(piece)} `;
    if (!hasCome) place.replaceChildren(text, shown);
    hasCome = true;
  };
  const isWanted = () => desk.view === view && place.isConnected;
  await ask({ what, state: view.id, bank, shown, take, isWanted });
  if (!place.isConnected) return;
  place.dataset.state = `${view.id}`;
  if (!hasCome && !shown.textContent) place.textContent = "";
  // The answer may be below the window; the focus stays at the button.
  place.scrollIntoView({ block: "nearest" });
};
