// The picture of up to forty banks: each stands at its place on a circle in all states. In the accent is what is
// unpaid, or what is unpaid more than in the state that one is held against; its area and width are the amount.
import { Arrow } from "./arrows.mjs";
import { FIRST_LINE, MOST_ALONG, nameAlong, namesBeside } from "./circlenames.mjs";
import { draw } from "./elements.mjs";
import { FONTS, widthOf } from "./letters.mjs";
import { shapeOf, stateWords } from "./marks.mjs";
import { apart, number, signed } from "./texts.mjs";

const WRITTEN = 10; // amounts that are written at most
const LEAST_MARK = 6; // half of the side of a bank's mark, in pixels
const MARK = 25, MARK_CLOSE = 15; // the same of the bank of which most differs
const CLOSE = 16; // banks from which on names stand along the radius
const AROUND = 54, AROUND_CLOSE = 30; // between the circle, or the names, and the edge
const MOST_TALL = 600, LEAST_TALL = 440, TALL = 0.66; // of the picture: in pixels, and by its width
const MOST_CLOSE = 720; // its side, where banks stand close
const EDGE = 8; // about what stands furthest out
const ALONG = [0.45, 0.34, 0.56, 0.24, 0.66]; // where an amount may stand on its arrow, the best first
const AMOUNT = 8; // half of the height of an amount
const BASELINE = 4; // from the middle of a text down to its line
const HIT = 14; // the least radius in which a bank is hit
const RING = 7; // between a bank and the ring about it

/** How tall the picture is. */
const tallOf = (wide, isClose) => (
  isClose ? Math.min(wide, MOST_CLOSE) : Math.max(LEAST_TALL, Math.min(MOST_TALL, TALL * wide))
);

/** The radius of the circle. */
const radiusOf = ({ names }, tall, isClose) => {
  if (!isClose) return tall / 2 - AROUND;
  const widest = Math.max(...names.map((name) => widthOf(name, FONTS.small)));
  return tall / 2 - Math.min(MOST_ALONG, widest) - AROUND_CLOSE;
};

/** @returns {import("./arrows.mjs").Spot[]} where each bank stands, and half of the side of its mark */
const spotsOf = (matter, wide, tall, isClose) => {
  const most = Math.max(1, ...matter.more.map(Math.abs));
  const side = isClose ? MARK_CLOSE : MARK;
  const radius = radiusOf(matter, tall, isClose);
  return matter.names.map((_, bank) => {
    const angle = 2 * Math.PI * bank / matter.names.length - Math.PI / 2;
    return {
      bank,
      angle,
      x: wide / 2 + radius * Math.cos(angle),
      y: tall / 2 + radius * Math.sin(angle),
      size: Math.max(LEAST_MARK, side * Math.sqrt(Math.abs(matter.more[bank]) / most)),
    };
  });
};

/** The flows whose amounts are written: the largest, of the chosen bank where there is one. */
const writtenOf = (matter, chosen) => new Set(
  matter.flows
    .filter(({ more, debtor, creditor }) => more && (chosen === null || debtor === chosen || creditor === chosen))
    .sort((one, other) => Math.abs(other.more) - Math.abs(one.more))
    .slice(0, WRITTEN),
);

const areApart = (one, other) => (
  one.right < other.left || other.right < one.left || one.bottom < other.top || other.bottom < one.top
);

/** The box of an amount at a point. */
const boxAt = ([x, y], half) => ({ x, y, left: x - half, right: x + half, top: y - AMOUNT, bottom: y + AMOUNT });

/**
 * The amounts on their arrows, the largest first: each where it stands over no other and over no bank, as far as
 * there is such a place.
 */
const amountsOf = ({ isSame, scale }, arrows, spots) => {
  const taken = spots.map(({ x, y, size }) => ({ left: x - size, right: x + size, top: y - size, bottom: y + size }));
  return arrows.map((arrow) => {
    const { more } = arrow.flow;
    const words = `${!isSame && more > 0 ? "+" : ""}${scale.number(more)}`;
    const half = widthOf(words, FONTS.small) / 2 + 2;
    const boxes = ALONG.map((part) => boxAt(arrow.at(part), half));
    const box = boxes.find((one) => taken.every((other) => areApart(one, other))) ?? boxes[0];
    taken.push(box);
    const where = { x: box.x, y: box.y + BASELINE, "text-anchor": "middle" };
    return draw("text", { class: "amount", ...where, "data-flow": arrow.key }, words);
  });
};

const nodeWords = (desk, matter, bank) => [
  `${apart(desk.full[bank])}: ${stateWords(matter.states[bank])}`,
  `${number(matter.now[bank])} unpaid`,
  matter.isSame || !matter.more[bank] ? "" : `${signed(matter.more[bank])} against “${desk.againstName}”`,
  desk.units.decides(bank) ? "one unit decides" : "",
].filter(Boolean).join(", ");

/** A bank with its name, what is unpaid of it, and what of its state is new. */
const nodeOf = (desk, matter, { bank, x, y, size }, name) => {
  const state = matter.states[bank];
  const more = matter.more[bank];
  const filling = more > 0 ? "more" : more < 0 ? "less" : "none";
  const words = nodeWords(desk, matter, bank);
  return draw(
    "a",
    { class: `node ${state}`, href: "#bank", "data-bank": bank, "aria-label": words },
    draw("title", {}, words),
    draw("circle", { class: "hit", cx: x, cy: y, r: Math.max(HIT, size + 6) }),
    draw("circle", { class: "ring", cx: x, cy: y, r: size + RING }),
    draw("path", { class: `shape ${filling}`, d: shapeOf(state, x, y, size) }),
    ...name,
  );
};

/** The drawing, as tall as what stands furthest out needs. */
const drawingOf = (wide, tall, names) => {
  const ys = names.flat().map((text) => Number(text.getAttribute("y"))).filter(Boolean);
  const top = Math.min(0, ...ys.map((y) => y - FIRST_LINE - EDGE));
  const bottom = Math.max(tall, ...ys.map((y) => y + EDGE));
  return draw("svg", {
    class: "net",
    viewBox: `0 ${Math.round(top)} ${Math.round(wide)} ${Math.round(bottom - top)}`,
    width: Math.round(wide),
    height: Math.round(bottom - top),
    role: "group",
    "aria-label": "The network drawn",
  });
};

/** The debts as arrows, in the order in which they are drawn. */
const arrowsOf = ({ flows }, spots) => {
  const widest = Math.max(1, ...flows.map(({ more }) => Math.abs(more)));
  return flows.map((flow) => new Arrow(flow, spots, widest)).sort((one, other) => one.rank - other.rank);
};

/**
 * Shows the banks on a circle.
 * @param {import("./desk.mjs").Desk} desk
 * @param {import("./matter.mjs").Matter} matter
 * @param {HTMLElement} place
 * @param {number} wide pixels
 * @returns {import("./picture.mjs").Picture}
 */
export const showCircle = (desk, matter, place, wide) => {
  const isClose = matter.names.length > CLOSE;
  const tall = tallOf(wide, isClose);
  const spots = spotsOf(matter, wide, tall, isClose);
  const names = isClose
    ? spots.map((spot) => nameAlong(desk, matter.names[spot.bank], spot))
    : namesBeside(desk, matter, spots, wide);
  const arrows = arrowsOf(matter, spots);
  const written = writtenOf(matter, desk.bank);
  const svg = drawingOf(wide, tall, names);
  svg.append(
    ...arrows.map((arrow) => arrow.element(desk, matter.names)),
    ...spots.map((spot, bank) => nodeOf(desk, matter, spot, names[bank])),
    ...amountsOf(desk, arrows.filter(({ flow }) => written.has(flow)).reverse(), spots),
  );
  place.replaceChildren(svg);
  return {
    form: "circle",
    writtenFrom: written.size ? Math.min(...[...written].map(({ more }) => Math.abs(more))) : null,
    isAllWritten: written.size === matter.flows.filter(({ more }) => more).length,
  };
};
