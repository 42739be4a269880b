// The curve of the player: what is paid in all from bank to bank, step by step, with its axes, drawn by d3.
import { sumOf } from "./ledger.mjs";

const TALL = 150; // pixels
const LEFT = 56, RIGHT = 14, TOP = 8, BELOW = 24; // about the curve, in pixels
const WIDE = 600; // where the page does not say how wide the curve is
const TICK = 90; // pixels of the axis of steps for each tick
const TICKS = 4; // of the axis of amounts
const SIZES = { k: "k", M: " m", G: " bn", T: " tn", P: ",000 tn" }; // what d3's signs of size are called here

/** The curve of what is paid in all. */
export class Rise {
  /**
   * @param {any} d3 the library
   * @param {SVGSVGElement} chart where it is drawn
   * @param {import("./player.mjs").Player} player
   */
  constructor(d3, chart, player) {
    const { journal, amounts, risen } = player;
    this.d3 = d3;
    this.chart = chart;
    this.steps = journal.frames.length;
    this.risen = risen.map((units) => amounts.worth(units));
    this.most = amounts.worth(sumOf(journal.owed));
    this.across = d3.scaleLinear().domain([0, this.steps || 1]);
  }

  /**
   * An amount on the axis, in short.
   * @param {number} value in the currency
   * @returns {string}
   */
  inShort(value) {
    if (value && value < 1000) return this.d3.format("~g")(value);
    return this.d3.format("~s")(value).replace(/[kMGTP]$/, (sign) => SIZES[sign]);
  }

  /**
   * Draws it anew, as wide as the page has room for.
   * @param {number} at how many steps are taken
   */
  draw(at) {
    const { d3, across } = this;
    const wide = this.chart.clientWidth || WIDE;
    const low = TALL - BELOW;
    across.range([LEFT, wide - RIGHT]);
    const up = d3.scaleLinear().domain([0, this.most || 1]).range([low, TOP]);
    const svg = d3.select(this.chart).attr("viewBox", `0 0 ${wide} ${TALL}`);
    svg.selectAll("*").remove();
    const steps = d3.axisBottom(across).ticks(Math.min(this.steps, wide / TICK)).tickFormat(d3.format(",d"));
    const sums = d3.axisLeft(up).ticks(TICKS).tickFormat((value) => this.inShort(value));
    svg.append("g").attr("transform", `translate(0,${low})`).call(steps);
    svg.append("g").attr("transform", `translate(${LEFT},0)`).call(sums);
    const line = d3.line().x((_, step) => across(step)).y(up).curve(d3.curveStepAfter);
    svg.append("path").attr("class", "rise").datum(this.risen).attr("d", line);
    svg.append("line").attr("class", "now").attr("y1", TOP / 2).attr("y2", low);
    this.move(at);
  }

  /**
   * Moves the line of the step at hand.
   * @param {number} at how many steps are taken
   */
  move(at) {
    this.d3.select(this.chart).select(".now").attr("x1", this.across(at)).attr("x2", this.across(at));
  }
}
