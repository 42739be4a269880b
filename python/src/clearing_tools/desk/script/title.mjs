// The title of a state against another: who joins those in default, who is in default no more, and what more or less
// stays unpaid.
import { differs, fallen, rows, saved, sums } from "./compare.mjs";
import { begun, listed, word } from "./sentences.mjs";

const MOST_NAMES = 3;

/**
 * How a title says things.
 * @typedef {Object} Speech
 * @property {(bank: number) => string} name a bank's name in a sentence
 * @property {(units: number) => string} say an amount
 */

/** That an amount stays unpaid: several units are many, and an amount of a currency is one. */
const stays = (said, more = "") => `${said}${more} ${said.endsWith("units") ? "stay" : "stays"} unpaid`;

/** The title of a state that is held against itself. */
const toldAlone = (view, say) => {
  const { defaults, unpaid } = sums(view);
  const count = defaults ? `${word(defaults)} of ${word(view.state.length)} banks` : "No bank";
  return `${begun(count)} ${defaults > 1 ? "are" : "is"} in default; ${stays(say(unpaid))}`;
};

/** Who falls and who is saved. */
const toldOfBanks = (before, now, name) => {
  const joining = fallen(before, now);
  const leaving = saved(before, now);
  const names = (banks) => listed(banks.map(name), MOST_NAMES);
  return [
    joining.length ? `${names(joining)} ${joining.length === 1 ? "joins" : "join"} those in default` : "",
    leaving.length ? `${names(leaving)} ${leaving.length === 1 ? "is" : "are"} in default no more` : "",
  ].filter(Boolean);
};

/**
 * The title of a state against another.
 * @param {import("./compare.mjs").State} before
 * @param {import("./compare.mjs").State} now
 * @param {boolean} isSame whether both are one
 * @param {Speech} speech
 * @returns {string}
 */
export const told = (before, now, isSame, { name, say }) => {
  if (isSame) return toldAlone(now, say);
  const is = sums(now);
  const more = is.unpaid - sums(before).unpaid;
  const banks = toldOfBanks(before, now, name);
  if (!banks.length && !rows(before, now).some(differs)) return "Nothing differs";
  if (!banks.length) banks.push(is.defaults ? "The same banks are in default" : "No bank is in default");
  const change = more ? stays(say(Math.abs(more)), more > 0 ? " more" : " less") : "as much stays unpaid";
  return [...banks, change].join("; ");
};
