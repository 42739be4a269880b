// How wide texts are in a picture, and how a name is laid in lines.

const MOST_WIDTHS = 20000; // that are held
const LEAST_WORD = 4; // letters of the word behind which a name is cut

/**
 * How letters are written: their size in pixels, and their weight.
 * @typedef {{size: number, weight: number}} Font
 */

/** Names in a picture, small names, notes, and titles of a picture as a file. @type {Object<string, Font>} */
export const FONTS = {
  name: { size: 14, weight: 700 },
  small: { size: 12, weight: 700 },
  note: { size: 12, weight: 400 },
  title: { size: 16, weight: 700 },
};

/** Measures texts. Names are measured for each picture anew, so that widths are held. */
class Measure {
  widths = new Map();
  pen = null; // a canvas, on which a text is measured
  family = null; // the font of the page stays; to ask for it each time would lay the page out each time

  widthOf(text, { size, weight }) {
    const key = `${weight} ${size} ${text}`;
    const held = this.widths.get(key);
    if (held !== undefined) return held;
    if (this.widths.size >= MOST_WIDTHS) this.widths.clear();
    this.pen ??= document.createElement("canvas").getContext("2d");
    this.family ??= getComputedStyle(document.body).fontFamily;
    this.pen.font = `${weight} ${size}px ${this.family}`;
    const { width } = this.pen.measureText(text);
    this.widths.set(key, width);
    return width;
  }
}

const measure = new Measure();

/**
 * How wide a text is.
 * @param {string} text
 * @param {Font} font
 * @returns {number} pixels
 */
export const widthOf = (text, font) => measure.widthOf(text, font);

/** How many of some words fit in a line, at least one. */
const countFitting = (words, fits) => {
  let count = words.length;
  while (count > 1 && !fits(words.slice(0, count).join(" "))) count -= 1;
  return count;
};

/** The last line of a name that goes on: cut with … behind a whole word of four letters or more. */
const cutLine = (words, fits) => {
  let count = countFitting(words, fits);
  const line = () => words.slice(0, count).join(" ");
  while (count > 1 && (!fits(`${line()}…`) || words[count - 1].length < LEAST_WORD)) count -= 1;
  let text = line();
  while (text.length > 1 && !fits(`${text}…`)) text = text.slice(0, -1);
  return `${text.replace(/[\s,;]+$/, "")}…`;
};

/** A line of whole words; a word that is wider than the line is cut. */
const wholeLine = (text, fits) => {
  let line = text;
  while (line.length > 1 && !fits(line)) line = line.slice(0, -1);
  return line === text ? line : `${line.slice(0, -1)}…`;
};

/**
 * A name in lines, cut with … where it is longer.
 * @param {string} name
 * @param {number} wide of a line at most, in pixels
 * @param {number} most how many lines at most
 * @param {Font} font
 * @returns {string[]}
 */
export const linesOf = (name, wide, most, font) => {
  const fits = (text) => widthOf(text, font) <= wide;
  const lines = [];
  let words = name.split(" ");
  while (words.length && lines.length < most) {
    const count = countFitting(words, fits);
    if (lines.length === most - 1 && count < words.length) return [...lines, cutLine(words, fits)];
    lines.push(wholeLine(words.slice(0, count).join(" "), fits));
    words = words.slice(count);
  }
  return lines;
};
