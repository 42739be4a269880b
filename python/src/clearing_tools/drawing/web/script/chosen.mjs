// The bank under the pointer or with the focus, in the report: its row in a box below the picture, and its debts alone
// in the picture.
import { by, make } from "./elements.mjs";

/** The parts of the page that show which bank is chosen. */
class Chosen {
  constructor(table, svg, flows, amounts) {
    this.table = table;
    this.svg = svg;
    this.amounts = amounts;
    this.rowOf = new Map(table.rows.map((row) => [table.bankOf(row), row]));
    this.debts = [...svg.querySelectorAll("g[data-flow]")].map((group) => {
      const [debtor, creditor] = flows[Number(group.dataset.flow)];
      return { group, banks: [debtor, creditor] };
    });
  }

  /** A cell of a bank's row as a pair of words: the head of its column, and an amount to the last digit. */
  pairOf(cell, column, bank) {
    const { heads, data } = this.table;
    const value = data.columns[column][bank];
    const isAmount = column > 1 && column < heads.length - 1 && typeof value === "number";
    return make("div", {},
      make("dt", {}, heads[column].textContent),
      make("dd", {}, isAmount ? this.amounts.money(value) : cell.textContent),
    );
  }

  show(bank) {
    for (const [one, row] of this.rowOf) row.classList.toggle("lit", one === bank);
    this.svg.classList.add("chosen");
    for (const { group, banks } of this.debts) group.classList.toggle("lit", banks.includes(bank));
    const [name, ...cells] = this.rowOf.get(bank).cells;
    const pairs = cells.map((cell, at) => this.pairOf(cell, at + 1, bank));
    by("shown").replaceChildren(
      make("h3", {}, ...Array.from(name.childNodes, (part) => part.cloneNode(true))),
      make("dl", {}, ...pairs),
    );
  }

  none() {
    this.svg.classList.remove("chosen");
    for (const row of this.rowOf.values()) row.classList.remove("lit");
  }
}

/**
 * Shows the bank at which the pointer is, or the focus, from now on.
 * @param {import("./banktable.mjs").BankTable} table
 * @param {SVGSVGElement} svg the picture of the network
 * @param {[number, number, number, number][]} flows debtor and creditor of each flow of the picture, by their places
 * @param {import("./amounts.mjs").Amounts} amounts
 */
export const showChosen = (table, svg, flows, amounts) => {
  const chosen = new Chosen(table, svg, flows, amounts);
  for (const link of /** @type {NodeListOf<SVGElement>} */ (svg.querySelectorAll("a[data-bank]"))) {
    const bank = Number(link.dataset.bank);
    for (const event of ["mouseenter", "focus"]) link.addEventListener(event, () => chosen.show(bank));
    for (const event of ["mouseleave", "blur"]) link.addEventListener(event, () => chosen.none());
  }
  by("shown").hidden = false;
};
