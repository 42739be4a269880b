// The states of banks, as words and as marks: a circle, a square, a diamond or a triangle.
import { draw } from "./elements.mjs";

const STATES = {
  fundamental: { name: "own fundamentals", words: "label own fundamentals" },
  contagion: { name: "contagion", words: "label contagion" },
  gridlock: { name: "gridlock", words: "gridlock, at the least alone" },
  sound: { name: "sound", words: "sound" },
  absent: { name: "not in that case", words: "not in that case" },
};
const SIDE = 16; // of the box of a mark, in pixels
const SIZE = 5; // half of the side of a mark in it
const POINTED = 5.6; // of one that reaches further out, to look as large as the others

/**
 * A state in a table.
 * @param {string} state
 * @returns {string}
 */
export const stateName = (state) => STATES[state].name;

/**
 * A state in a sentence.
 * @param {string} state
 * @returns {string}
 */
export const stateWords = (state) => STATES[state].words;

/**
 * The shape of a state about a point.
 * @param {string} state
 * @param {number} x
 * @param {number} y
 * @param {number} size half of its side, in pixels
 * @returns {string} a path
 */
export const shapeOf = (state, x, y, size) => {
  if (state === "fundamental") return `M${x - size},${y - size}h${2 * size}v${2 * size}h${-2 * size}z`;
  if (state === "gridlock") return `M${x},${y - 1.2 * size}l${1.2 * size},${2.1 * size}h${-2.4 * size}z`;
  const far = 1.25 * size;
  if (state === "contagion") return `M${x},${y - far}l${far},${far}l${-far},${far}l${-far},${-far}z`;
  return `M${x - size},${y}a${size},${size} 0 1 0 ${2 * size},0a${size},${size} 0 1 0 ${-2 * size},0z`;
};

/**
 * The mark of a state beside a name, and in the legend.
 * @param {string} state
 * @returns {SVGElement}
 */
export const mark = (state) => {
  const size = state === "contagion" || state === "gridlock" ? POINTED : SIZE;
  return draw(
    "svg",
    { class: `mark ${state}`, width: SIDE, height: SIDE, viewBox: `0 0 ${SIDE} ${SIDE}`, "aria-hidden": "true" },
    draw("path", { d: state === "absent" ? "M3 8h10" : shapeOf(state, SIDE / 2, SIDE / 2, size) }),
  );
};
