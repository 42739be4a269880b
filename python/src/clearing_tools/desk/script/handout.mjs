// What the page hands out of itself: the table of differences as CSV, and pictures as SVG and PNG. Each has its source,
// and of which states it is.
import { rows } from "./compare.mjs";
import { by, draw, make } from "./elements.mjs";
import { pictureOf, save, savePicture } from "./files.mjs";
import { FONTS, linesOf } from "./letters.mjs";

const STYLES = /^(svg|rect|path|polygon|text|\.)/; // rules of style that a drawing may need
const EDGE = 12, HEAD = 22, LINE = 17, ABOVE = 6; // about a drawing, its title and its source, in pixels
const MOST_HEADS = 3, MOST_FEET = 4; // lines of its title and of its source
const COLUMNS = [
  "bank", "name", "state_before", "state", "unpaid_before", "unpaid", "keeps_before", "keeps",
  "one_unit_decides", "source",
];

/**
 * A figure of the page: the place of its drawing and its title by their ids, the name of its files, and the kinds.
 * @typedef {{key: string, place: string, title: string, name: string, kinds: string[]}} Figure
 */

/** @type {Figure[]} */
const FIGURES = [
  { key: "picture", place: "picture", title: "told", name: "network", kinds: ["SVG", "PNG"] },
  { key: "curve", place: "curve-place", title: "curve-title", name: "curve", kinds: ["SVG", "PNG"] },
  { key: "differences", place: "differences", title: "told", name: "differences", kinds: ["CSV"] },
];

const svgOf = (figure) => /** @type {SVGSVGElement} */ (by(figure.place).querySelector("svg.net, svg.chart"));

/** What the program was asked for a figure. */
const tasksOf = ({ view }, { key }) => (
  key === "curve" ? "outcomes" : `stress and ${view.greatest ? "cost-bounds" : "bounds"}`
);

/** Of which program, tasks, case and states a figure is. */
const sourceOf = (context, figure) => {
  const { network, money, nowName, isSame } = context;
  const asOf = network.asOf ? ` as of ${network.asOf}` : "";
  const unit = network.hasUnit
    ? ` One unit of account is ${money.with(money.exact(1))}.`
    : " Amounts in units of account.";
  const states = `“${nowName}”${isSame ? "" : ` against “${context.againstName}”`}`;
  const program = `${network.program}, ${tasksOf(context, figure)}`;
  return `Source: ${program}. ${network.title || "A network"}${asOf}, ${states}.${unit}`;
};

const field = (text) => (/[",\r\n]/.test(text) ? `"${String(text).replaceAll('"', '""')}"` : String(text));

/**
 * The table of all banks as CSV, in units of account. Each row has its source, so that it has it wherever it goes.
 * @param {import("./desk.mjs").Desk} desk
 * @param {string} source
 * @returns {string}
 */
const csvOf = ({ network, against, view, units }, source) => [
  COLUMNS,
  ...rows(against, view).map((row) => [
    network.names[row.bank],
    network.labels[row.bank],
    row.was,
    row.is,
    row.unpaidBefore,
    row.unpaid,
    row.keepsBefore,
    row.keeps,
    units.decides(row.bank) ? "yes" : "no",
    source,
  ]),
]
  .map((row) => `${row.map(field).join(",")}\n`)
  .join("");

/** A drawing with its title above it and its source below. Names may stand beyond the drawing's own box. */
const titledPicture = (svg, title, source) => {
  const own = svg.viewBox.baseVal;
  const seen = svg.getBBox();
  const x = Math.min(own.x, seen.x) - EDGE;
  const width = Math.max(own.x + own.width, seen.x + seen.width) + EDGE - x;
  const heads = linesOf(title, width - 2 * EDGE, MOST_HEADS, FONTS.title);
  const feet = linesOf(source, width - 2 * EDGE, MOST_FEET, FONTS.note);
  const y = Math.min(own.y, seen.y) - EDGE - heads.length * HEAD;
  const bottom = Math.max(own.y + own.height, seen.y + seen.height) + EDGE + feet.length * LINE + ABOVE;
  const foot = (at) => bottom - EDGE - LINE * (feet.length - 1 - at);
  return pictureOf(svg, { x, y, width, height: bottom - y }, STYLES, [
    ...heads.map((line, at) => draw("text", { class: "heading", x: x + EDGE, y: y + HEAD * (at + 1) }, line)),
    ...feet.map((line, at) => draw("text", { class: "source", x: x + EDGE, y: foot(at) }, line)),
  ]);
};

/** Gives a figure as a file of a kind. */
const give = (desk, figure, kind) => {
  const name = `${figure.name}.${kind.toLowerCase()}`;
  const source = sourceOf(desk, figure);
  if (kind === "CSV") {
    save(name, csvOf(desk, source), "text/csv;charset=utf-8");
  } else {
    savePicture(name, titledPicture(svgOf(figure), by(figure.title).textContent, source));
  }
};

/** A button that gives a figure as a file. */
const giver = (desk, figure, kind) => make(
  "button",
  {
    type: "button",
    class: "link",
    "data-file": `${figure.key}.${kind}`,
    "aria-label": `${by(figure.title).textContent} as ${kind}`,
    click: () => give(desk, figure, kind),
  },
  kind,
);

/**
 * Shows at the foot of each figure where it is from, and in which kinds it is handed out.
 * @param {import("./desk.mjs").Desk} desk
 */
export const showSources = (desk) => {
  for (const figure of FIGURES) {
    const kinds = figure.kinds.includes("CSV") || svgOf(figure) ? figure.kinds : [];
    const foot = by(`${figure.key}-source`);
    foot.replaceChildren(
      `Source: ${desk.network.program}, ${tasksOf(desk, figure)}. `,
      ...kinds.flatMap((kind) => [giver(desk, figure, kind), " "]),
    );
    foot.hidden = figure.key === "curve" && !kinds.length;
  }
};
