// The names of the banks on the circle: beside their banks, or along the radius where banks stand close.
import { draw } from "./elements.mjs";
import { FONTS, linesOf } from "./letters.mjs";

export const FIRST_LINE = 14; // from the top of a name to its first line, in pixels
const LINE = 17, NOTE_LINE = 15; // from the line before
const BELOW = 4; // below the last line
const GAP = 3; // between two names on one side
const ROUNDS = 20; // in which names are moved apart
const REACH = 14, REACH_CLOSE = 8; // from a bank's mark to its name
const SIDE = 0.3; // from this cosine on a name stands left or right of its bank
const MOST_WIDE = 230, MIDDLE_WIDE = 200, LEAST_WIDE = 90; // of a name
const EDGE = 6; // at the edge of the picture
export const MOST_ALONG = 118; // of a name along the radius

/**
 * A name beside its bank: where its lines begin, end or have their middle, from where down, and how tall they are.
 * Each line has its kind, its text, and how far it is below the one before.
 * @typedef {Object} Label
 * @property {"start" | "middle" | "end"} anchor
 * @property {number} x
 * @property {number} top
 * @property {number} tall
 * @property {{kind: string, text: string, step: number}[]} lines
 */

/** What stands below a name: what is unpaid, and what of its state is new. */
const notesOf = (desk, matter, bank) => {
  const more = matter.more[bank];
  const notes = [];
  if (more) {
    const sign = matter.isSame || more < 0 ? "" : "+";
    const text = `${sign}${desk.scale.number(more)} unpaid`;
    notes.push({ kind: more > 0 ? "unpaid" : "note", text, step: NOTE_LINE });
  }
  if (matter.isTurned(bank)) {
    const text = matter.states[bank] === "sound" ? "in default no more" : "newly in default";
    notes.push({ kind: "note", text, step: NOTE_LINE });
  }
  return notes;
};

/** How wide a name may be. */
const roomOf = (anchor, x, wide) => {
  if (anchor === "middle") return MIDDLE_WIDE;
  return Math.min(Math.max(LEAST_WIDE, (anchor === "start" ? wide - x : x) - EDGE), MOST_WIDE);
};

/** From where down a name stands: beside its bank, or above or below it. */
const topOf = (anchor, { angle, y }, reach, tall) => {
  if (anchor !== "middle") return y - tall / 2;
  return Math.sin(angle) < 0 ? y - reach - tall + BELOW : y + reach - BELOW;
};

/** @returns {Label} */
const labelOf = (desk, matter, spot, wide) => {
  const { bank, angle, x, size } = spot;
  const cos = Math.cos(angle);
  const anchor = cos > SIDE ? "start" : cos < -SIDE ? "end" : "middle";
  const reach = size + REACH;
  const textX = x + (anchor === "middle" ? 0 : reach * Math.sign(cos));
  const names = linesOf(matter.names[bank], roomOf(anchor, textX, wide), 2, FONTS.name);
  names.push(`${names.pop()}${desk.units.markOf(bank)}`);
  const lines = [
    ...names.map((text) => ({ kind: "name", text, step: LINE })),
    ...notesOf(desk, matter, bank),
  ];
  const tall = FIRST_LINE + BELOW + lines.slice(1).reduce((sum, { step }) => sum + step, 0);
  return { anchor, lines, x: textX, top: topOf(anchor, spot, reach, tall), tall };
};

/** Moves names of one side down, and then up, until none stands over another. */
const settle = (labels) => {
  labels.sort((one, other) => one.top + one.tall / 2 - other.top - other.tall / 2);
  for (let round = 0; round < ROUNDS; round += 1) {
    labels.slice(1).forEach((label, at) => {
      const over = labels[at].top + labels[at].tall + GAP - label.top;
      if (over > 0) {
        labels[at].top -= over / 2;
        label.top += over / 2;
      }
    });
  }
};

/** @returns {SVGElement[]} */
const textsOf = ({ lines, anchor, x, top }) => {
  let y = top;
  return lines.map(({ kind, text, step }, at) => {
    y += at ? step : FIRST_LINE;
    return draw("text", { class: kind, x, y, "text-anchor": anchor }, text);
  });
};

/**
 * The names beside their banks, outwards, with what is unpaid below each; those of one side stand apart.
 * @param {import("./desk.mjs").Desk} desk
 * @param {import("./matter.mjs").Matter} matter
 * @param {import("./arrows.mjs").Spot[]} spots where the banks stand
 * @param {number} wide of the picture, in pixels
 * @returns {SVGElement[][]} the lines of each bank's name
 */
export const namesBeside = (desk, matter, spots, wide) => {
  const labels = spots.map((spot) => labelOf(desk, matter, spot, wide));
  for (const anchor of ["start", "end"]) settle(labels.filter((label) => label.anchor === anchor));
  return labels.map(textsOf);
};

/**
 * A name along the radius, where banks stand close.
 * @param {import("./desk.mjs").Desk} desk
 * @param {string} name
 * @param {import("./arrows.mjs").Spot} spot
 * @returns {SVGElement[]}
 */
export const nameAlong = (desk, name, { bank, angle, x, y, size }) => {
  const isLeft = Math.cos(angle) < -1e-9;
  const [line] = linesOf(name, MOST_ALONG, 1, FONTS.small);
  const reach = size + REACH_CLOSE;
  const textX = x + reach * Math.cos(angle);
  const textY = y + reach * Math.sin(angle);
  const turn = angle * 180 / Math.PI + (isLeft ? 180 : 0);
  const where = `translate(${textX.toFixed(1)} ${textY.toFixed(1)}) rotate(${turn.toFixed(1)})`;
  const attributes = { class: "name small", "text-anchor": isLeft ? "end" : "start", dy: 4, transform: where };
  return [draw("text", attributes, `${line}${desk.units.markOf(bank)}`)];
};
