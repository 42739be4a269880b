// Amounts as text, to the last digit, as the report and the player have them.
import { decimal } from "./texts.mjs";

/** The amounts of a page, in its currency. */
export class Amounts {
  /**
   * @param {{mantissa: string, places: number, currency: string | null, bare: boolean}} data what a unit of account
   *   is worth, as a whole number of so many decimal places; its currency; and whether amounts are bare units
   */
  constructor({ mantissa, places, currency, bare }) {
    this.mantissa = BigInt(mantissa);
    this.places = places;
    this.currency = currency;
    this.isBare = bare;
  }

  /**
   * An amount without its currency.
   * @param {number} units units of account
   * @returns {string}
   */
  number(units) {
    return decimal(units, this.mantissa, this.places);
  }

  /**
   * An amount in a sentence: with its currency, or with the word for units.
   * @param {number} units units of account
   * @returns {string}
   */
  money(units) {
    if (this.currency) return `${this.currency} ${this.number(units)}`;
    return this.isBare ? `${this.number(units)} ${units === 1 ? "unit" : "units"}` : this.number(units);
  }

  /**
   * What an amount is worth, as a number that a scale can have.
   * @param {number} units units of account
   * @returns {number}
   */
  worth(units) {
    return units * (Number(this.mantissa) / 10 ** this.places);
  }
}
