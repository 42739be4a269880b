// The table of what differs, or of all banks where nothing is held against the state at hand; its heads sort it.
import { bankButton } from "./bankbutton.mjs";
import { differs, rows, sorted, sums } from "./compare.mjs";
import { by, make } from "./elements.mjs";
import { mark, stateName } from "./marks.mjs";
import { begun, listed } from "./sentences.mjs";
import { many, number } from "./texts.mjs";

const AT_FIRST = 40; // rows
const MOST_ABSENT = 12; // banks of the other case alone that are named

const cell = (text, kind = null) => make("td", { class: kind }, text);

/** The table of a state against another, or of it alone. */
class DifferenceTable {
  /** @param {import("./desk.mjs").Desk} desk */
  constructor(desk) {
    this.desk = desk;
    this.isSame = desk.isSame;
    this.all = rows(desk.against, desk.view);
    this.count = this.all.filter(differs).length;
    this.scale = desk.money.scale(Math.max(...this.all.map((row) => (
      Math.max(row.unpaid, row.unpaidBefore, row.keeps, row.keepsBefore)
    ))));
    this.most = Math.max(1, ...this.all.map((row) => Math.abs(this.differenceOf(row)))); // of the bars
  }

  /** What the bar of a row shows: what is unpaid, or unpaid more. */
  differenceOf(row) {
    return this.isSame ? row.unpaid : row.unpaidMore;
  }

  /** All rows in the order that is asked for; those that differ first, where rows are alike. */
  get ordered() {
    const { key, isTurned } = this.desk.order;
    const found = this.isSame
      ? this.all
      : [...this.all.filter(differs), ...this.all.filter((row) => !differs(row))];
    return sorted(found, this.isSame && key === "unpaidMore" ? "unpaid" : key, isTurned);
  }

  /** The title, and below it the scale and how many banks differ. */
  showTitle() {
    const { againstName } = this.desk;
    const scale = begun(this.scale.words) || "In the currency";
    const howMany = this.count
      ? `${number(this.count)} of ${many(this.all.length, "bank")} ${this.count === 1 ? "differs" : "differ"} from`
      : "Every bank stands as in";
    by("differ-title").textContent = this.isSame ? "The banks" : "What differs";
    by("compared").textContent = this.isSame ? `${scale}.` : `${scale}. ${howMany} “${againstName}”.`;
  }

  /** The columns: what each is sorted by, its words, and its kind. */
  get columns() {
    const { nowName, againstName } = this.desk;
    const bars = { key: "", words: "", kind: "bars" };
    const banks = [
      { key: "bank", words: "Bank", kind: "text" },
      { key: "state", words: "State", kind: "text" },
    ];
    if (this.isSame) {
      return [...banks, { key: "unpaid", words: "unpaid" }, bars, { key: "keeps", words: "keeps" }];
    }
    return [
      ...banks,
      { key: "unpaidBefore", words: againstName },
      { key: "unpaid", words: nowName },
      { key: "unpaidMore", words: "differs" },
      bars,
      { key: "keepsBefore", words: againstName },
      { key: "keeps", words: nowName },
      { key: "keepsMore", words: "differs" },
    ];
  }

  headOf({ key, words, kind = "" }) {
    const { order } = this.desk;
    const isOrder = key === order.key;
    const turned = isOrder ? (order.isTurned ? " ▴" : " ▾") : "";
    const sort = isOrder ? (order.isTurned ? "descending" : "ascending") : null;
    const button = key
      ? make("button", { type: "button", "data-order": key, click: () => this.orderBy(key) }, words, turned)
      : "";
    return make("th", { scope: "col", class: `${kind} ${key}`.trim(), "aria-sort": sort }, button);
  }

  /** Sorts by a column, the other way where it is sorted by that. */
  orderBy(key) {
    const { order } = this.desk;
    this.desk.order = { key, isTurned: order.key === key && !order.isTurned };
    showDifferences(this.desk);
    /** @type {HTMLElement | null} */
    const head = document.querySelector(`[data-order="${key}"]`);
    head?.focus();
  }

  head() {
    const group = (span, title, kind) => make("td", { colspan: span, class: kind }, title);
    const groups = make("tr", { class: "groups" },
      group(2, "", ""),
      group(3, "Unpaid", "group"),
      group(1, "", ""),
      group(3, "Keeps", "group"),
    );
    const heads = this.columns.map((column) => this.headOf(column));
    return make("thead", {}, this.isSame ? null : groups, make("tr", {}, ...heads));
  }

  number(units) {
    return this.scale.number(units);
  }

  /** A difference with its sign. */
  more(units) {
    return units ? `${units > 0 ? "+" : ""}${this.number(units)}` : "0";
  }

  barOf(row) {
    const units = this.differenceOf(row);
    const bar = make("i", { class: units < 0 ? "less" : "" });
    bar.style.width = units ? `max(2px, ${100 * Math.abs(units) / this.most}%)` : "0";
    return make("td", { class: "bars" }, bar);
  }

  amountsOf(row) {
    const { unpaid, unpaidBefore, unpaidMore, keeps, keepsBefore, keepsMore } = row;
    if (this.isSame) {
      return [
        cell(this.number(unpaid), unpaid ? "amount unpaid" : "unpaid"),
        this.barOf(row),
        cell(this.number(keeps), "keeps"),
      ];
    }
    return [
      cell(this.number(unpaidBefore), "unpaidBefore"),
      cell(this.number(unpaid), "unpaid"),
      cell(this.more(unpaidMore), `unpaidMore ${unpaidMore ? "amount" : "nil"}`),
      this.barOf(row),
      cell(this.number(keepsBefore), "keepsBefore"),
      cell(this.number(keeps), "keeps"),
      cell(this.more(keepsMore), "keepsMore"),
    ];
  }

  rowOf(row) {
    const { bank, was, is } = row;
    const states = was === is || this.isSame
      ? [stateName(is)]
      : [`${stateName(was)} → `, make("b", {}, stateName(is))];
    return make("tr", { "data-bank": bank, class: bank === this.desk.bank ? "chosen" : null },
      make("th", { scope: "row", class: "text" },
        make("span", { class: "bank" }, mark(is), bankButton(this.desk, bank)),
      ),
      make("td", { class: "state text" }, ...states),
      ...this.amountsOf(row),
    );
  }

  /** The sums over all banks. */
  foot() {
    const was = sums(this.desk.against);
    const is = sums(this.desk.view);
    const before = this.isSame || was.defaults === is.defaults ? "" : `${number(was.defaults)} → `;
    const cells = this.isSame
      ? [cell(this.number(is.unpaid), "unpaid"), cell("", "bars"), cell(this.number(is.keeps), "keeps")]
      : [
          cell(this.number(was.unpaid), "unpaidBefore"),
          cell(this.number(is.unpaid), "unpaid"),
          cell(this.more(is.unpaid - was.unpaid), "unpaidMore amount"),
          cell("", "bars"),
          cell(this.number(was.keeps), "keepsBefore"),
          cell(this.number(is.keeps), "keeps"),
          cell(this.more(is.keeps - was.keeps), "keepsMore"),
        ];
    return make("tfoot", {},
      make("tr", {},
        make("th", { scope: "row", class: "text" }, `All ${many(this.all.length, "bank")}`),
        cell(`${before}${number(is.defaults)} in default`, "state text"),
        ...cells,
      ),
    );
  }

  show() {
    this.showTitle();
    const { ordered } = this;
    const shown = this.desk.isWhole ? ordered : ordered.slice(0, AT_FIRST);
    const isPart = shown.length < ordered.length;
    by("differences").className = `banks ${this.isSame ? "same" : "diff"}`;
    by("differences").replaceChildren(
      make("caption", { class: "vh" }, by("differ-title").textContent),
      this.head(),
      make("tbody", {}, ...shown.map((row) => this.rowOf(row))),
      this.foot(),
    );
    by("more").hidden = !isPart;
    by("more").textContent = `Show all ${number(ordered.length)} banks`;
    by("part").textContent = isPart
      ? `These are ${number(shown.length)} of ${many(ordered.length, "bank")}; the CSV of the desk has all.`
      : "";
  }
}

/**
 * Shows the table of what differs.
 * @param {import("./desk.mjs").Desk} desk
 */
export const showDifferences = (desk) => new DifferenceTable(desk).show();

/**
 * Gives the row of the chosen bank its ground, and no other.
 * @param {import("./context.mjs").Context} context
 */
export const markDifferences = ({ bank }) => {
  /** @type {NodeListOf<HTMLElement>} */
  const found = by("differences").querySelectorAll("tbody tr");
  for (const row of found) row.classList.toggle("chosen", Number(row.dataset.bank) === bank);
};

/**
 * Names the banks that the other case alone has.
 * @param {import("./context.mjs").Context} context
 */
export const showAbsent = ({ against, againstName }) => {
  by("absent").textContent = against.case && against.onlyThere.length
    ? `In “${againstName}” alone: ${listed(against.onlyThere, MOST_ABSENT)}.`
    : "";
};
