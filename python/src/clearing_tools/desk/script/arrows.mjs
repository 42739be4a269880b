// The debts of the picture as arrows from bank to bank, bent aside, so that two ways are two arrows.
import { draw } from "./elements.mjs";
import { apart, number, signed } from "./texts.mjs";

const BEND = 0.12; // how far the bend is aside, by the length of the arrow
const WIDEST = 14, LEAST = 2, THIN = 1; // widths in pixels: of what differs most, of what differs at all, of the rest
const CASE = 3; // by how much wider the ground about an arrow is
const HOLLOW = 2; // by how much narrower what is hollow in it is
const LEAST_HOLLOW = 3; // the width above which an arrow has something hollow
const GAP = 3; // between the tip and the bank, in pixels
const LEAST_HEAD = 7, HEAD = 1.5; // the length of the head: in pixels, and by the width of the arrow
const LEAST_HALF = 3.5, HALF = 0.9; // half of its breadth, likewise
const LEAST_RANK = 1e-9; // of what is unpaid as before: above what is paid, below all that differs

/**
 * Where a bank stands in the picture, and half of the side of its mark, in pixels.
 * @typedef {{bank: number, angle: number, x: number, y: number, size: number}} Spot
 */

/**
 * A point, or a step, as x and y in pixels.
 * @typedef {[number, number]} Point
 */

/**
 * A point in a path.
 * @param {Point} point
 */
const round = ([x, y]) => `${x.toFixed(1)},${y.toFixed(1)}`;

/**
 * The direction from one point to another, as a step of one pixel.
 * @param {Point} from
 * @param {Point} to
 * @returns {Point}
 */
const towards = ([fromX, fromY], [x, y]) => {
  const size = Math.hypot(x - fromX, y - fromY) || 1;
  return [(x - fromX) / size, (y - fromY) / size];
};

const kindOf = ({ more, unpaid }) => (more > 0 ? "more" : more < 0 ? "less" : unpaid ? "kept" : "paid");

/**
 * What a debt says where it is pointed at.
 * @param {import("./context.mjs").Context} context
 * @param {import("./pairs.mjs").Flow} flow
 * @param {string[]} names of the banks
 * @returns {string}
 */
const flowWords = (context, { debtor, creditor, claim, paid, more }, names) => {
  const against = context.isSame || !more ? "" : `; unpaid ${signed(more)} against “${context.againstName}”`;
  return `${apart(names[debtor])} to ${apart(names[creditor])}: ${number(paid)} of ${number(claim)} paid${against}`;
};

/** A debt as an arrow. */
export class Arrow {
  /**
   * @param {import("./pairs.mjs").Flow} flow
   * @param {Spot[]} spots where the banks stand
   * @param {number} most units by which the most differs
   */
  constructor(flow, spots, most) {
    this.flow = flow;
    this.kind = kindOf(flow);
    this.differs = this.kind === "more" || this.kind === "less";
    this.width = this.differs ? Math.max(LEAST, WIDEST * Math.abs(flow.more) / most) : THIN;
    this.lay(spots[flow.debtor], spots[flow.creditor]);
  }

  /** Lays it from the edge of one bank's mark to that of the other's. */
  lay(start, end) {
    const [dx, dy] = [end.x - start.x, end.y - start.y];
    /** @type {Point} */
    this.middle = [start.x + dx / 2 - BEND * dy, start.y + dy / 2 + BEND * dx];
    const out = towards([start.x, start.y], this.middle);
    const into = towards(this.middle, [end.x, end.y]);
    const head = Math.max(LEAST_HEAD, HEAD * this.width);
    /** @type {Point} */
    this.begin = [start.x + start.size * out[0], start.y + start.size * out[1]];
    const gap = end.size + GAP;
    /** @type {Point} */
    this.tip = [end.x - gap * into[0], end.y - gap * into[1]];
    /** @type {Point} */
    this.neck = [this.tip[0] - head * into[0], this.tip[1] - head * into[1]];
    this.into = into;
  }

  /** How far above others it is drawn. */
  get rank() {
    if (this.kind === "paid") return 0;
    return this.kind === "kept" ? LEAST_RANK : Math.abs(this.flow.more);
  }

  /** What it is called in the page. */
  get key() {
    return `${this.flow.debtor}-${this.flow.creditor}`;
  }

  /**
   * A point of its line.
   * @param {number} part from 0 at its begin to 1 at its head
   * @returns {Point}
   */
  at(part) {
    const along = (axis) => (
      (1 - part) ** 2 * this.begin[axis] + 2 * part * (1 - part) * this.middle[axis] + part * part * this.neck[axis]
    );
    return [along(0), along(1)];
  }

  /** Its line as a path. */
  get path() {
    return `M${round(this.begin)}Q${round(this.middle)} ${round(this.neck)}`;
  }

  /** The corners of its head. */
  get head() {
    const half = Math.max(LEAST_HALF, HALF * this.width);
    const [x, y] = this.neck;
    const [ux, uy] = this.into;
    /** @type {Point[]} */
    const corners = [this.tip, [x - half * uy, y + half * ux], [x + half * uy, y - half * ux]];
    return corners.map(round).join(" ");
  }

  /**
   * The arrow drawn.
   * @param {import("./context.mjs").Context} context
   * @param {string[]} names of the banks
   * @returns {SVGElement}
   */
  element(context, names) {
    const line = (kind, width) => draw("path", { class: kind, d: this.path, "stroke-width": width });
    return draw(
      "g",
      { class: `flow ${this.kind}`, "data-flow": this.key },
      draw("title", {}, flowWords(context, this.flow, names)),
      this.differs ? line("case", this.width + CASE) : null,
      line("line", this.width),
      this.kind === "less" && this.width > LEAST_HOLLOW ? line("hollow", this.width - HOLLOW) : null,
      draw("polygon", { class: "head", points: this.head }),
    );
  }
}
