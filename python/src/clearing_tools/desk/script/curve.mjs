// How many banks are in default at each cut of all cash: a curve, and the ticks of the slider.
import { MOST } from "./breaking.mjs";
import { by, draw, make } from "./elements.mjs";
import { FONTS, linesOf } from "./letters.mjs";
import { many, number } from "./texts.mjs";

const AT_ONCE = 60; // banks up to which the question is asked unasked, and each has a mark
const WIDE = 720, LEAST_WIDE = 300; // pixels
const TALL = 200, LEFT = 44, RIGHT = 16, TOP = 12, BOTTOM = 32;
const MOST_TICKS = 400; // of the slider
const MOST_STEPS = 5; // banks up to which each number is a step of the axis
const PERCENTS = [0, 25, 50, 75, 100];
const DOT = 4, HIT = 10; // the radius of a mark, and of where it is hit
const NAME = { wide: 230, aside: 10, above: 8, room: 60 }; // of the chosen bank, in pixels

/** Shows the ticks below the slider, each where a bank falls. */
const showTicks = (falls) => {
  const cuts = new Set(falls.map(({ cut }) => cut).filter((cut) => cut > 0));
  by("ticks").replaceChildren(...[...cuts].slice(0, MOST_TICKS).map((cut) => {
    const tick = make("b");
    tick.style.left = `${cut / 10}%`;
    return tick;
  }));
};

/** What the curve says. */
const titleOf = (falls, known) => {
  if (!falls.length) return "At which cut each bank falls";
  if (!known.isExact) return "At which cut each bank falls, to ten per mille so far";
  const already = falls.filter(({ cut }) => cut === 0).length;
  return (
    `${many(falls.length, "bank")} of ${number(known.high.length)} ${falls.length === 1 ? "falls" : "fall"} `
    + `at some cut of all cash, ${number(already)} without one`
  );
};

/** The chart of the curve. */
class Chart {
  /**
   * @param {import("./desk.mjs").Desk} desk
   * @param {import("./breaking.mjs").Fall[]} falls the least cut first
   * @param {number} wide pixels
   */
  constructor(desk, falls, wide) {
    this.desk = desk;
    this.falls = falls;
    this.wide = wide;
  }

  x(cut) {
    return LEFT + (this.wide - LEFT - RIGHT) * cut / MOST;
  }

  y(count) {
    return TALL - BOTTOM - (TALL - TOP - BOTTOM) * count / Math.max(1, this.falls.length);
  }

  draw() {
    const wide = Math.round(this.wide);
    const words = { role: "group", "aria-label": "Banks in default by the cut of all cash" };
    return draw(
      "svg",
      { class: "chart", width: wide, height: TALL, viewBox: `0 0 ${wide} ${TALL}`, ...words },
      draw("path", { class: "area", d: `${this.path()}V${this.y(0)}H${this.x(0)}z` }),
      ...this.axes(),
      draw("path", { class: "curve", d: this.path() }),
      draw("path", { class: "now", d: `M${this.x(this.desk.view.cut)},${TOP}V${this.y(0)}` }),
      ...this.marks(),
    );
  }

  path() {
    const steps = this.falls.map(({ cut }, at) => `H${this.x(cut).toFixed(1)}V${this.y(at + 1).toFixed(1)}`);
    return `M${this.x(0)},${this.y(0)}${steps.join("")}H${this.x(MOST)}`;
  }

  axes() {
    const most = this.falls.length;
    const counts = most <= MOST_STEPS
      ? Array.from({ length: most + 1 }, (_, at) => at)
      : [0, Math.round(most / 2), most];
    const anchor = (percent) => (percent === 100 ? "end" : percent ? "middle" : "start");
    return [
      ...counts.map((count) => draw("path", {
        class: "grid",
        d: `M${LEFT},${this.y(count)}H${this.wide - RIGHT}`,
      })),
      ...counts.map((count) => draw(
        "text",
        { class: "axis", x: LEFT - 8, y: this.y(count) + 4, "text-anchor": "end" },
        number(count),
      )),
      ...PERCENTS.map((percent) => draw(
        "text",
        { class: "axis", x: this.x(10 * percent), y: TALL - 10, "text-anchor": anchor(percent) },
        `${percent}%`,
      )),
    ];
  }

  /** A mark for each bank that opens it; of many banks for the chosen one alone, whose name stands there. */
  marks() {
    const chosen = this.desk.bank;
    const isFew = this.falls.length <= AT_ONCE;
    return this.falls.flatMap((fall, at) => [
      isFew || fall.bank === chosen ? this.markOf(fall, at) : null,
      fall.bank === chosen ? this.nameOf(fall, at) : null,
    ]);
  }

  markOf({ bank, cut }, at) {
    const words = `${this.desk.name(bank)} falls at ${cut / 10}%`;
    const open = (event) => {
      event.preventDefault();
      event.stopPropagation();
      this.desk.open(bank);
    };
    const kind = `fall ${bank === this.desk.bank ? "chosen" : ""}`;
    const place = { cx: this.x(cut), cy: this.y(at + 1) };
    return draw(
      "a",
      { class: kind, href: "#bank", "data-bank": bank, "aria-label": words, click: open },
      draw("title", {}, words),
      draw("circle", { class: "hit", ...place, r: HIT }),
      draw("circle", { class: "dot", ...place, r: DOT }),
    );
  }

  nameOf({ bank, cut }, at) {
    const isRight = this.x(cut) > this.wide / 2;
    const room = Math.min(NAME.wide, this.wide / 2 - LEFT - NAME.room);
    const [line] = linesOf(this.desk.network.shown[bank], room, 1, FONTS.small);
    return draw(
      "text",
      {
        class: "name small",
        x: this.x(cut) + (isRight ? -NAME.aside : NAME.aside),
        y: this.y(at + 1) - NAME.above,
        "text-anchor": isRight ? "end" : "start",
      },
      `${line} ${cut / 10}%`,
    );
  }
}

/** Shows what is known for the state at hand. */
const paint = (desk, known) => {
  const { falls } = known;
  const wide = Math.max(LEAST_WIDE, desk.curveWide || WIDE);
  showTicks(falls);
  by("curve-place").replaceChildren(...(falls.length ? [new Chart(desk, falls, wide).draw()] : []));
  by("curve-title").textContent = titleOf(falls, known);
  if (by("breaks") && desk.bank !== null) by("breaks").textContent = desk.breaking.words(desk.bank);
  desk.showNext();
};

/**
 * Asks at which cut each bank falls, and shows what comes.
 * @param {import("./desk.mjs").Desk} desk
 */
export const askCurve = (desk) => desk.breaking.ask((known) => paint(desk, known));

/**
 * Shows what is known for the state at hand, and asks where the network is small.
 * @param {import("./desk.mjs").Desk} desk
 */
export const showCurve = (desk) => {
  const known = desk.breaking.known(desk.view);
  paint(desk, known);
  const isSmall = desk.view.state.length <= AT_ONCE;
  by("ask-curve").hidden = known.isWhole || isSmall;
  if (isSmall) askCurve(desk);
};
