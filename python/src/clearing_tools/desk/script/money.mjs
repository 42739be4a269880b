// Amounts in the currency of a case: exactly, in a sentence, and in the one scale of a table.
import { decimal, minus } from "./texts.mjs";

const SPACE = "\u00a0"; // a number and its unit do not part
const TWO_DECIMALS = new Intl.NumberFormat("en-US", { minimumFractionDigits: 2, maximumFractionDigits: 2 });
const HALF = 0.5, HALF_A_HUNDREDTH = 0.005;
const BILLION = 1e9, MILLION = 1e6, THOUSAND = 1e3;
const SIZES = [[BILLION, "billion"], [MILLION, "million"], [THOUSAND, "thousand"]]; // of a table
const POWERS = [[9, "billion"], [6, "million"], [3, "thousand"]]; // of ten, of an account
const FROM_BILLIONS = 999.5e6; // what is said in billions: from here on it is 1.00 of them
const FROM_MILLIONS = 10e6; // what is said in whole millions

/** A whole number, of two that are as near the even one: so does the report. */
const rounded = (value) => {
  const whole = Math.round(value);
  return Math.abs(value % 1) === HALF && whole % 2 ? whole - 1 : whole;
};

/**
 * A scale: what its numbers are in, and an amount of so many units of account as a number in it.
 * @typedef {{words: string, number: (units: number) => string}} Scale
 */

/** Amounts in the currency of a case. */
export class Money {
  /**
   * @param {string} [unit] what one unit of account is worth, an exact decimal
   * @param {string} [currency] its sign; nothing where the case has none
   * @param {boolean} [hasUnit] whether the case says what a unit is worth
   */
  constructor(unit = "1", currency = "", hasUnit = false) {
    const [whole, part = ""] = unit.split(".");
    this.places = part.length; // decimal places of what a unit is worth
    this.mantissa = BigInt(whole + part);
    this.unit = Number(unit);
    this.currency = currency;
    this.hasUnit = hasUnit;
  }

  /** What amounts are in: the currency, or units of account. */
  get kind() {
    return this.currency || (this.hasUnit ? "" : "units");
  }

  /**
   * A number with the words before and behind it.
   * @param {string} text the number
   * @param {string} [size] such as "million"
   * @returns {string}
   */
  with(text, size = "") {
    const parts = this.currency ? [this.currency, text, size] : [text, size, this.kind];
    return parts.filter(Boolean).join(SPACE);
  }

  /**
   * An amount in a sentence: billions with two decimals, below that whole millions where it is millions, else the
   * whole.
   * @param {number} units units of account
   * @returns {string}
   */
  say(units) {
    const value = units * this.unit;
    const size = Math.abs(value);
    if (size >= FROM_BILLIONS) return this.with(`${value < 0 ? "−" : ""}${(size / BILLION).toFixed(2)}`, "billion");
    if (this.hasUnit && size >= FROM_MILLIONS) return this.with(minus(rounded(value / MILLION)), "million");
    return this.currency || this.hasUnit
      ? this.with(this.exact(units))
      : `${minus(units)}${SPACE}${Math.abs(units) === 1 ? "unit" : "units"}`;
  }

  /**
   * An amount to the last digit.
   * @param {number} units units of account
   * @returns {string}
   */
  exact(units) {
    return decimal(units, this.mantissa, this.places);
  }

  /**
   * The scale of an account, which is to the last unit: the largest in which a unit has two decimals at most.
   * @returns {Scale}
   */
  get whole() {
    const zeros = /0*$/.exec(this.mantissa.toString())[0].length;
    const decimals = (power) => Math.max(0, this.places + power - zeros);
    const [power, large] = POWERS.find(([one]) => this.hasUnit && decimals(one) <= 2) ?? [0, ""];
    return {
      words: [this.kind || (large ? "" : "the currency"), large].filter(Boolean).join(" "),
      number: (units) => decimal(units, this.mantissa, this.places + Number(power), decimals(power)),
    };
  }

  /**
   * The one scale of a table. An amount that is not 0 is never shown as 0.
   * @param {number} most the largest amount of it, in units of account
   * @returns {Scale}
   */
  scale(most) {
    const value = most * this.unit;
    const least = this.hasUnit ? THOUSAND : MILLION; // so many of a size, before it is the scale
    const [size, large] = SIZES.find(([one]) => value >= least * Number(one)) ?? [1, ""];
    if (size === 1) {
      return { words: this.kind, number: (units) => (this.hasUnit ? this.exact(units) : minus(units)) };
    }
    return {
      words: (this.currency ? [this.currency, large] : [large, this.kind]).filter(Boolean).join(" "),
      number: (units) => shortened(units * this.unit / Number(size)),
    };
  }

  /**
   * The scale of large figures, with two decimals in billions. An amount that is not 0 is never shown as 0.
   * @param {number} most the largest of them, in units of account
   * @returns {Scale}
   */
  figures(most) {
    if (most * this.unit < BILLION) return this.scale(most);
    return { words: this.with("", "bn").trim(), number: (units) => fixed(units * this.unit / BILLION) };
  }
}

// What is not 0 is never shown as 0: half of the least that is shown, and what is below it, is less than that.
const signed = (value, text) => `${value < 0 ? "−" : ""}${text}`;

const fixed = (value) => {
  const size = Math.abs(value);
  return signed(value, size && size <= HALF_A_HUNDREDTH ? "<0.01" : TWO_DECIMALS.format(size));
};

const shortened = (value) => {
  const size = Math.abs(value);
  return size && size <= HALF ? signed(value, "<1") : minus(rounded(value));
};
