// The table of banks of the report: sorted, filtered, by pages.
import { by, fieldBy, make } from "./elements.mjs";
import { many } from "./texts.mjs";

const PER_PAGE = 50; // rows
const IN_DEFAULT = "default"; // the choice of all states but sound

/**
 * What the page has of its banks. Lists are over the banks in file order.
 * @typedef {Object} BankData
 * @property {string[]} names what the banks are called in the files
 * @property {Object<number, string>} hidden the names of those whose names have signs that are not seen
 * @property {Object<number, string>} full the full names of those that have one
 * @property {string[]} state how each bank stands
 * @property {(string | number | null)[][]} columns the values of each column of the table; nothing where one has none
 */

/** The table of banks, with what is asked of it above. */
export class BankTable {
  /**
   * @param {BankData} data
   */
  constructor(data) {
    const table = /** @type {HTMLTableElement} */ (by("banks-table"));
    this.data = data;
    this.body = table.tBodies[0];
    this.rows = Array.from(this.body.rows); // in the order of the page
    this.heads = Array.from(table.tHead.rows[0].cells);
    this.sorted = this.rows;
    this.page = 0;
  }

  /**
   * The bank of a row, by its place in the file.
   * @param {HTMLTableRowElement} row
   * @returns {number}
   */
  bankOf(row) {
    return Number(row.dataset.bank);
  }

  /** Makes the heads buttons, and listens to all that is asked of the table. */
  begin() {
    this.heads.forEach((head, column) => {
      const button = make("button", { type: "button", click: () => this.sortBy(column) }, ...head.childNodes);
      head.append(button);
      head.setAttribute("aria-sort", "none");
    });
    by("search").addEventListener("input", () => this.show(0));
    by("state").addEventListener("change", () => this.show(0));
    by("earlier").addEventListener("click", () => this.show(this.page - 1));
    by("later").addEventListener("click", () => this.show(this.page + 1));
    by("table-tools").hidden = false;
    this.show(0);
  }

  /** Whether a bank stands as is asked for; gridlock is contagion too. */
  isInState(bank) {
    const wanted = fieldBy("state").value;
    const state = this.data.state[bank];
    if (wanted === "all" || state === wanted) return true;
    return wanted === IN_DEFAULT ? state !== "sound" : wanted === "contagion" && state === "gridlock";
  }

  /** Whether a bank has what is sought in one of its names. */
  isFound(bank) {
    const { names, hidden, full } = this.data;
    const sought = fieldBy("search").value.replace(/^ +| +$/g, "").toLocaleLowerCase();
    return [names[bank], hidden[bank] || "", full[bank] || ""].some((name) => (
      name.toLocaleLowerCase().includes(sought)
    ));
  }

  /**
   * Shows a page of the rows that are asked for; the nearest one where there is no such page.
   * @param {number} page from 0
   */
  show(page) {
    const kept = this.sorted.filter((row) => this.isInState(this.bankOf(row)) && this.isFound(this.bankOf(row)));
    const pages = Math.max(1, Math.ceil(kept.length / PER_PAGE));
    this.page = Math.min(Math.max(page, 0), pages - 1);
    for (const row of this.rows) row.hidden = true;
    kept.forEach((row, at) => {
      row.hidden = false;
      row.classList.toggle("off-page", Math.floor(at / PER_PAGE) !== this.page);
    });
    by("page").textContent = `${many(kept.length, "bank")}, page ${this.page + 1} of ${pages}`;
    fieldBy("earlier").disabled = this.page === 0;
    fieldBy("later").disabled = this.page === pages - 1;
  }

  /**
   * Sorts the rows by a column: names from the first on, numbers from the largest on, and the other way at the next
   * time. What has no value stands last either way.
   * @param {number} column
   */
  sortBy(column) {
    const head = this.heads[column];
    const before = head.getAttribute("aria-sort");
    const isRising = before === "none" ? column === 0 : before === "descending";
    for (const other of this.heads) other.setAttribute("aria-sort", "none");
    head.setAttribute("aria-sort", isRising ? "ascending" : "descending");
    this.sorted = this.rows.slice().sort((one, other) => this.compare(one, other, column, isRising));
    this.body.append(...this.sorted);
    this.show(0);
  }

  /** Which of two rows comes first by a column, as a sort asks it; in file order where that does not say. */
  compare(one, other, column, isRising) {
    const values = this.data.columns[column];
    const [bank, otherBank] = [this.bankOf(one), this.bankOf(other)];
    const [value, otherValue] = [values[bank], values[otherBank]];
    if (value === null || otherValue === null) {
      return Number(value === null) - Number(otherValue === null) || bank - otherBank;
    }
    const far = typeof value === "string"
      ? value.localeCompare(String(otherValue))
      : Number(value) - Number(otherValue);
    return (isRising ? far : -far) || bank - otherBank;
  }
}
