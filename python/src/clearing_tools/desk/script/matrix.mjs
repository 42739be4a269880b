// The picture of many banks: debtors by creditors in blocks, which open until single banks stand there.
import { blocksOf, calledIn, sumsOf } from "./blocks.mjs";
import { draw, make } from "./elements.mjs";
import { FONTS, linesOf } from "./letters.mjs";
import { apart, many } from "./texts.mjs";

const LEFT = 168, TOP = 114; // what the names of rows and columns take, in pixels
const LEAN = 44; // by how much the names of the last columns lean over the edge
const MOST_CELL = 36, LEAST_CELL = 20; // the side of a cell
const GAP = 3; // between the squares of two cells
const LEAST_CLAIM = 3, LEAST_MORE = 4; // the side of a square: of what is owed, and of what differs
const ROW_NAME = { wide: 150, gap: 10 }; // of a name: how wide it is, and how far from the cells
const COLUMN_NAME = { wide: 124, gap: 8 };
const LEANING = -55; // degrees
const BASELINE = 4; // from the middle of a text down to its line
const AXIS = [24, 8]; // how far above the cells the words of the axes stand
const BELOW = 8; // below the cells

/** A side of the matrix: its blocks, what they are called, and the banks of the other side. */
class Side {
  constructor(isColumn, blocks, names, across) {
    this.isColumn = isColumn;
    this.blocks = blocks;
    this.called = calledIn(blocks, names);
    this.across = across;
  }

  /** Where a block leads that opens: that block by the other side as it is. */
  stepInto(at) {
    const { banks } = this.blocks[at];
    const { whole } = this.called[at];
    return this.isColumn
      ? { rows: this.across, columns: banks, words: `${whole} as creditors` }
      : { rows: banks, columns: this.across, words: `${whole} as debtors` };
  }
}

/** The matrix at the place where it is opened. */
class Matrix {
  form = "matrix";
  writtenFrom = null;

  constructor(desk, matter, place, wide) {
    this.desk = desk;
    this.matter = matter;
    this.place = place;
    this.wide = wide;
    if (!desk.zoom.length) desk.zoom.push({ rows: null, columns: null, words: "All banks" });
  }

  /** Whether blocks are of banks by their size. */
  get isBySize() {
    return this.rows.blocks.some(({ name, banks }) => name === null && banks.length > 1);
  }

  /** Opens a block, or the account of a bank that stands alone. */
  open(step) {
    this.desk.zoom.push(step);
    this.desk.drawPicture();
  }

  /** Goes back to a step of the way in. */
  back(at) {
    this.desk.zoom.length = at + 1;
    this.desk.drawPicture();
  }

  /** Takes the rows and columns of the step at hand, with the sums of their cells. */
  lay() {
    const { desk, matter } = this;
    const { groups, shown } = desk.network;
    const step = desk.zoom.at(-1);
    const all = matter.names.map((_, bank) => bank);
    const blocks = (banks) => blocksOf(banks ?? all, groups, desk.base.owed);
    step.blocks ??= [blocks(step.rows), blocks(step.columns)];
    this.rows = new Side(false, step.blocks[0], shown, step.columns);
    this.columns = new Side(true, step.blocks[1], shown, step.rows);
    this.sums = sumsOf(matter, this.rows.blocks, this.columns.blocks);
    const room = (this.wide - LEFT - LEAN) / step.blocks[1].length;
    this.cell = Math.min(MOST_CELL, Math.max(LEAST_CELL, room));
  }

  show() {
    this.lay();
    const wide = Math.round(this.wide);
    const tall = Math.round(TOP + this.cell * this.rows.blocks.length + BELOW);
    const words = { role: "group", "aria-label": "The network as a matrix" };
    this.place.replaceChildren(this.way(), draw(
      "svg",
      { class: "net matrix", width: wide, height: tall, ...words, viewBox: `0 0 ${wide} ${tall}` },
      draw("text", { class: "axis", x: 0, y: TOP - AXIS[0] }, "debtors in rows,"),
      draw("text", { class: "axis", x: 0, y: TOP - AXIS[1] }, "creditors in columns"),
      draw("g", { transform: `translate(${LEFT} ${TOP})` },
        draw("path", { class: "grid", d: this.grid() }),
        ...this.squares(),
        ...this.sums.map((sum) => this.cellOf(sum)),
        ...this.namesOf(this.rows),
        ...this.namesOf(this.columns),
      ),
    ));
  }

  /** The way in, each step of which leads back. */
  way() {
    const { zoom } = this.desk;
    const steps = zoom.map(({ words }, at) => (
      at === zoom.length - 1
        ? make("b", {}, words)
        : make("button", { type: "button", click: () => this.back(at) }, words)
    ));
    return make("nav", { class: "way", "aria-label": "Where the matrix is opened" }, ...steps);
  }

  /** The lines between rows and between columns, as a path. */
  grid() {
    const { cell } = this;
    const [down, right] = [this.rows.blocks.length, this.columns.blocks.length];
    return [
      ...Array.from({ length: down + 1 }, (_, at) => `M0,${at * cell}H${right * cell}`),
      ...Array.from({ length: right + 1 }, (_, at) => `M${at * cell},0V${down * cell}`),
    ].join("");
  }

  /**
   * The squares of all cells: in grey what is claimed, in the accent what is unpaid or differs, as areas from 0. All
   * of a kind are one path.
   */
  squares() {
    const { cell, sums } = this;
    const largest = (key) => Math.max(1, ...sums.map((sum) => Math.abs(sum[key])));
    const [most, claims] = [largest("more"), largest("claim")];
    const paths = { claim: "", more: "", less: "" };
    const add = (kind, { right, down }, least, share) => {
      const side = Math.max(least, (cell - GAP) * Math.sqrt(share));
      const [x, y] = [(right + 0.5) * cell - side / 2, (down + 0.5) * cell - side / 2];
      paths[kind] += `M${x},${y}h${side}v${side}h${-side}z`;
    };
    for (const sum of sums) {
      add("claim", sum, LEAST_CLAIM, sum.claim / claims);
      if (sum.more) add(sum.more > 0 ? "more" : "less", sum, LEAST_MORE, Math.abs(sum.more) / most);
    }
    return Object
      .entries(paths)
      .filter(([, d]) => d)
      .map(([kind, d]) => draw("path", { class: `squares ${kind}`, d }));
  }

  /** What a cell says where it is pointed at. */
  cellWords({ count, claim, unpaid, more }) {
    const { money, isSame, againstName } = this.desk;
    const words = `${many(count, "pair")} of banks: ${money.say(claim)} owed, ${money.say(unpaid)} unpaid`;
    if (isSame || !more) return words;
    return `${words}, ${money.say(Math.abs(more))} ${more > 0 ? "more" : "less"} than “${againstName}”`;
  }

  /** A cell, which opens. The keyboard opens rows and columns by their names: so many cells would be in its way. */
  cellOf(sum) {
    const { cell } = this;
    const rows = this.rows.blocks[sum.down].banks;
    const columns = this.columns.blocks[sum.right].banks;
    const isSingle = rows.length === 1 && columns.length === 1;
    const words = `${rows.length} by ${columns.length} banks`;
    const open = () => (isSingle ? this.desk.open(rows[0]) : this.open({ rows, columns, words }));
    return draw(
      "g",
      { class: "cell", "data-flow": isSingle ? `${rows[0]}-${columns[0]}` : null, click: open },
      draw("title", {}, this.cellWords(sum)),
      draw("rect", { class: "room", x: sum.right * cell, y: sum.down * cell, width: cell, height: cell }),
    );
  }

  /** The names of a side: each a bank, or a block that opens. */
  namesOf(side) {
    return side.blocks.map(({ banks }, at) => {
      const isBank = banks.length === 1;
      const holds = this.desk.bank !== null && banks.includes(this.desk.bank);
      const open = (event) => {
        event.preventDefault();
        event.stopPropagation();
        return isBank ? this.desk.open(banks[0]) : this.open(side.stepInto(at));
      };
      const kind = `side ${isBank ? this.matter.states[banks[0]] : ""} ${holds ? "holds" : ""}`;
      return draw(
        "a",
        { href: "#bank", class: kind, "data-bank": isBank ? banks[0] : null, click: open },
        draw("title", {}, this.nameWords(banks)),
        this.nameText(side, at),
      );
    });
  }

  /** What a name says where it is pointed at. */
  nameWords(banks) {
    const { states } = this.matter;
    if (banks.length === 1) return `${apart(this.desk.full[banks[0]])}: ${states[banks[0]]}`;
    const defaults = banks.filter((bank) => states[bank] !== "sound").length;
    return `${many(banks.length, "bank")}, ${defaults} in default: open`;
  }

  nameText({ isColumn, blocks, called }, at) {
    const { banks } = blocks[at];
    const { whole, short } = called[at];
    const middle = this.cell * (at + 0.5);
    const { wide, gap } = isColumn ? COLUMN_NAME : ROW_NAME;
    const where = isColumn
      ? { transform: `translate(${middle + BASELINE} ${-gap}) rotate(${LEANING})` }
      : { x: -gap, y: middle + BASELINE, "text-anchor": "end" };
    const [line] = linesOf(isColumn ? short : whole, wide, 1, FONTS.small);
    const mark = banks.length === 1 ? this.desk.units.markOf(banks[0]) : "";
    return draw("text", { ...where, class: "name small" }, `${line}${mark}`);
  }
}

/**
 * Shows the matrix at the place where it is opened.
 * @param {import("./desk.mjs").Desk} desk
 * @param {import("./matter.mjs").Matter} matter
 * @param {HTMLElement} place
 * @param {number} wide pixels
 * @returns {import("./picture.mjs").Picture}
 */
export const showMatrix = (desk, matter, place, wide) => {
  const matrix = new Matrix(desk, matter, place, wide);
  matrix.show();
  return matrix;
};
