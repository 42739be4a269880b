// The account of a bank as a table: the state held against, the state at hand, and a bar for each line. Each debtor
// opens in turn.
import { linesOf } from "./account.mjs";
import { debtorPart } from "./debtor.mjs";
import { draw, make } from "./elements.mjs";
import { opener } from "./opener.mjs";

const TALL = 12; // of a bar, in pixels
const LEAST_BAR = 1.5; // hundredths of the width
const isOfDebtor = ({ debtor, rest }) => debtor !== undefined || Boolean(rest);

/** Bars one after another on a scale that has all of them, as hundredths of the width. */
class Bars {
  constructor(lines) {
    this.ends = [0];
    for (const { is } of lines) this.ends.push(this.ends.at(-1) + is);
    this.low = Math.min(0, ...this.ends);
    this.high = Math.max(1, ...this.ends);
  }

  at(units) {
    return 100 * (units - this.low) / (this.high - this.low);
  }

  bar(from, to, kind) {
    const x = Math.min(this.at(from), this.at(to));
    const width = Math.max(LEAST_BAR, Math.abs(this.at(to) - this.at(from)));
    const box = { width: "100%", height: TALL, viewBox: `0 0 100 ${TALL}`, preserveAspectRatio: "none" };
    return draw(
      "svg",
      { ...box, "aria-hidden": "true" },
      draw("rect", { class: "origin", x: Math.max(0, this.at(0) - 0.5), width: 1, height: TALL }),
      from === to ? null : draw("rect", { class: kind, x, width, height: TALL }),
    );
  }

  /** The bar of a line, from where the one before ended. */
  of(line, place) {
    const kind = line.isWhole ? "paid" : isOfDebtor(line) ? "more" : "dark";
    return this.bar(this.ends[place], this.ends[place + 1], kind);
  }

  /** The bar of what is left. */
  ofLeft(units) {
    return this.bar(0, units, units < 0 ? "more" : "dark");
  }
}

/** The table of an account. */
class AccountTable {
  constructor(desk, bank, now, before) {
    this.desk = desk;
    this.bank = bank;
    this.now = now;
    this.before = before;
    this.whole = desk.money.whole;
    this.columns = desk.isSame ? 3 : 4;
  }

  /** The amounts of a line, and its bar. */
  cells(line, bar) {
    const number = (units) => this.whole.number(units);
    const isAmount = line.is && (isOfDebtor(line) || line.isLack);
    return [
      this.desk.isSame ? null : make("td", {}, this.before ? number(line.was) : "–"),
      make("td", { class: isAmount ? "amount" : "" }, number(line.is)),
      make("td", { class: "wf" }, bar),
    ];
  }

  /** The rows of a line. */
  rows(line, bar) {
    if (line.debtor !== undefined) return this.debtorRows(line, bar);
    if (line.rest) return this.restRows(line, bar);
    const kind = line.isWhole ? "whole" : null;
    return [make("tr", { class: kind }, make("th", { scope: "row" }, line.words), ...this.cells(line, bar))];
  }

  /** The rows of a debtor: its line, and what it lacks itself, which is asked for when it is opened. */
  debtorRows(line, bar) {
    const { desk, bank } = this;
    const { debtor } = line;
    const inner = make("td", { colspan: this.columns });
    const opened = make("tr", { class: "inner", hidden: true }, inner);
    const name = make("b", {}, desk.network.shown[debtor], desk.units.markOf(debtor));
    const open = async (isOpen) => {
      opened.hidden = !isOpen;
      if (isOpen && !inner.hasChildNodes()) inner.append(await debtorPart(desk, bank, debtor, [bank]));
    };
    const head = make("th", { scope: "row" }, opener([line.words, name], open, { "data-bank": debtor }));
    return [make("tr", { "data-bank": debtor }, head, ...this.cells(line, bar)), opened];
  }

  /** The row that stands for many debtors, and theirs behind it, which it opens. */
  restRows(line, bar) {
    const more = line.rest.flatMap((one) => this.rows(one, null));
    for (const row of more) row.hidden = true;
    const open = (isOpen) => {
      // What a debtor lacks itself stays closed until it is opened.
      const rows = isOpen ? more.filter((row) => !row.classList.contains("inner")) : more;
      for (const row of rows) row.hidden = !isOpen;
    };
    const head = make("th", { scope: "row" }, opener([line.words], open));
    return [make("tr", {}, head, ...this.cells(line, bar)), ...more];
  }

  element() {
    const { desk, now, before, whole } = this;
    const lines = linesOf(now, desk.isSame ? null : before);
    const bars = new Bars(lines);
    const head = (name) => make("th", { scope: "col" }, name);
    const left = { was: before?.left, is: now.left, isLack: now.left < 0 };
    const caption = `The account of what it ${now.left < 0 ? "lacks" : "keeps"}, ${whole.words}, to the last unit`;
    return make("table", { id: "account", class: "acc" },
      make("caption", {}, caption),
      make("thead", {},
        make("tr", {}, make("td"), desk.isSame ? null : head(desk.againstName), head(desk.nowName), make("td")),
      ),
      make("tbody", {}, ...lines.flatMap((line, at) => this.rows(line, bars.of(line, at)))),
      make("tfoot", {},
        make("tr", { class: "total" },
          make("th", { scope: "row" }, "Left; below 0: lacking"),
          ...this.cells(left, bars.ofLeft(now.left)),
        ),
      ),
    );
  }
}

/**
 * The account of a bank as a table.
 * @param {import("./desk.mjs").Desk} desk
 * @param {number} bank
 * @param {import("./account.mjs").Account} now in the state at hand
 * @param {import("./account.mjs").Account | null} before in the state held against; nothing where it is not there
 * @returns {HTMLElement}
 */
export const accountTable = (desk, bank, now, before) => new AccountTable(desk, bank, now, before).element();
