// Words and names as they stand in a sentence.
import { number } from "./texts.mjs";

const WORDS = [
  "no", "one", "two", "three", "four", "five", "six", "seven", "eight", "nine", "ten", "eleven", "twelve",
];
const LEAST_WORD = 4; // letters of the word behind which a name is cut, so that no name ends with an article

/**
 * A count in a word, as far as twelve.
 * @param {number} count
 * @returns {string}
 */
export const word = (count) => WORDS[count] ?? number(count);

/**
 * A sentence with a large first letter.
 * @param {string} text
 * @returns {string}
 */
export const begun = (text) => `${text.slice(0, 1).toUpperCase()}${text.slice(1)}`;

/**
 * A sentence with a full stop, and with one alone where its last word ends with one, as the name of a bank may.
 * @param {string} text
 * @returns {string}
 */
export const ended = (text) => (text.endsWith(".") ? text : `${text}.`);

/**
 * Names in a sentence.
 * @param {string[]} names
 * @param {number} [most] how many of them are named; the rest are counted
 * @param {string} [last] the word before the last one
 * @returns {string}
 */
export const listed = (names, most = 5, last = "and") => {
  const shown = names.slice(0, most);
  const rest = names.length - shown.length;
  const parts = rest ? [...shown, `${number(rest)} more`] : shown;
  return parts.length < 2 ? parts.join("") : `${parts.slice(0, -1).join(", ")} ${last} ${parts.at(-1)}`;
};

/**
 * A name in a sentence, cut after a whole word of four letters or more where it is long.
 * @param {string} name
 * @param {number} [most] how many signs it has at most
 * @returns {string}
 */
export const cut = (name, most = 28) => {
  if ([...name].length <= most) return name;
  const words = name.split(" ");
  while (words.length > 1 && ([...words.join(" ")].length >= most || [...words.at(-1)].length < LEAST_WORD)) {
    words.pop();
  }
  return `${[...words.join(" ")].slice(0, most - 1).join("").replace(/[\s,;]+$/, "")}…`;
};
