// The legend of the picture.
import { by, draw, make } from "./elements.mjs";
import { mark } from "./marks.mjs";

const STATES = [
  { state: "fundamental", words: "own fundamentals" },
  { state: "contagion", words: "label contagion" },
  { state: "gridlock", words: "gridlock" },
  { state: "sound", words: "sound" },
];

/**
 * What stands in the legend: a sample, where there is one, and its words.
 * @typedef {{sample?: SVGElement, words: string}} Entry
 */

/** @param {Entry} entry */
const entryElement = ({ sample, words }) => make("span", {}, sample, words);

/** A sample of a debt on the circle. */
const line = (kind) => draw(
  "svg",
  { width: 28, height: 10, class: `sample flow ${kind}`, "aria-hidden": "true" },
  draw("path", { class: "line", d: "M0,5H28", "stroke-width": kind === "more" || kind === "less" ? 6 : 1.5 }),
  kind === "less" ? draw("path", { class: "hollow", d: "M0,5H28", "stroke-width": 4 }) : null,
);

/** A sample of a square of the matrix. */
const square = (kind) => draw(
  "svg",
  { class: "sample", width: 14, height: 14, "aria-hidden": "true" },
  draw("rect", { class: `squares ${kind}`, x: 1, y: 1, width: 12, height: 12 }),
);

/** What the debts of the circle mean, where two states are held against one another. */
const debtsAgainst = (hasLess) => [
  { sample: line("more"), words: "unpaid more; width: the amount" },
  ...(hasLess ? [{ sample: line("less"), words: "unpaid less" }] : []),
  { sample: line("kept"), words: "unpaid as before" },
];

/**
 * What the debts and marks of the circle mean.
 * @returns {Entry[]}
 */
const entriesOfCircle = ({ isSame, matter, view }) => [
  ...(isSame ? [{ sample: line("more"), words: "unpaid; width: the amount" }] : debtsAgainst(matter.hasLess)),
  { sample: line("paid"), words: "paid" },
  ...STATES
    .filter(({ state }) => view.state.includes(state))
    .map(({ state, words }) => ({ sample: mark(state), words })),
];

/**
 * What the squares of the matrix mean.
 * @returns {Entry[]}
 */
const entriesOfMatrix = ({ isSame, matter }) => [
  { sample: square("more"), words: isSame ? "unpaid" : "unpaid more" },
  ...(matter.hasLess ? [{ sample: square("less"), words: "unpaid less" }] : []),
  { sample: square("claim"), words: "owed" },
  { words: "areas: the amounts, each kind by its largest" },
];

/**
 * Shows what the picture's marks mean.
 * @param {import("./context.mjs").Context} context
 */
export const showKey = (context) => {
  const entries = context.picture.form === "matrix" ? entriesOfMatrix(context) : entriesOfCircle(context);
  by("key").replaceChildren(...entries.map(entryElement));
};
