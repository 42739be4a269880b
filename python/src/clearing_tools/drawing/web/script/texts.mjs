// Counts, amounts and names as text, as all pages write them. An amount is a whole number of units of account below 2
// to the 53rd, as the program's limits have it.

// One form for all numbers: to make one for each is what takes long.
const FORM = new Intl.NumberFormat("en-US");
const MINUS = "\u2212";

/**
 * A number with its digits in groups.
 * @param {number | bigint} value
 * @returns {string}
 */
export const number = (value) => FORM.format(value);

/**
 * A whole number with a sign of its own below 0, and none before 0.
 * @param {number} value
 * @returns {string}
 */
export const minus = (value) => (value < 0 ? `${MINUS}${number(-value)}` : number(value + 0));

/**
 * A difference with its sign; none before 0.
 * @param {number} value
 * @returns {string}
 */
export const signed = (value) => (value > 0 ? `+${number(value)}` : minus(value));

/**
 * A count with its noun.
 * @param {number} count
 * @param {string} noun of one, such as "bank"
 * @returns {string}
 */
export const many = (count, noun) => `${number(count)} ${noun}${count === 1 ? "" : "s"}`;

/**
 * An amount to the last digit, as a decimal.
 * @param {number} units units of account
 * @param {bigint} mantissa what a unit is worth, in the last of its decimal places
 * @param {number} places the decimal places of what a unit is worth
 * @param {number} [decimals] how many of the places are written: all, where it is not said
 * @returns {string}
 */
export const decimal = (units, mantissa, places, decimals = places) => {
  const digits = (BigInt(Math.abs(units)) * mantissa).toString().padStart(places + 1, "0");
  const whole = digits.slice(0, digits.length - places);
  const part = digits.slice(digits.length - places).slice(0, decimals);
  return `${units < 0 ? MINUS : ""}${number(BigInt(whole))}${part ? `.${part}` : ""}`;
};

/**
 * A name held apart, since it may run from right to left. Signs that turn the order of letters stand in it as codes.
 * @param {string} name
 * @returns {string}
 */
export const apart = (name) => `\u2068${name}\u2069`;
