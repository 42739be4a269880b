// The debts of the picture while a journal is played: how wide each is, and where its arrow begins, by what stays
// unpaid of it. The picture is that of the package for Python, whose module `curves` has the same sizes.
import { setAll } from "./elements.mjs";

const PAID = 1; // the width of a debt that is paid in full, in pixels
const CASE = 3; // by how much wider the ground about a debt is
// The length of an arrow's head: the least in pixels, by the width of the debt, and what is added.
const LEAST_HEAD = 6;
const HEAD = 0.95;
const HEAD_MORE = 5;
const BREADTH = 2.1; // by how much wider than half of the debt half of the head is
const SQUARE = 32; // the side of the largest square of a matrix
const LEAST_SQUARE = 3; // the side of the least one

/**
 * The width of a debt.
 * @param {number} unpaid units that stay unpaid of it
 * @param {number} most the units that the widest stands for
 * @param {[number, number]} widths the least and the greatest width of one that is unpaid, in pixels
 * @returns {number} pixels
 */
const widthFor = (unpaid, most, [least, widest]) => (
  unpaid > 0 && most ? Math.max(least, widest * Math.min(1, unpaid / most)) : PAID
);

/**
 * The side of a square of a matrix, whose area is what stays unpaid.
 * @param {number} unpaid units
 * @param {number} most the units that the largest stands for
 * @returns {number} pixels
 */
const sideFor = (unpaid, most) => (
  unpaid > 0 && most ? Math.max(LEAST_SQUARE, SQUARE * Math.sqrt(Math.min(1, unpaid / most))) : LEAST_SQUARE
);

const text = (...numbers) => numbers.map((number) => number.toFixed(1)).join(" ");

/**
 * The line of a debt up to its arrow, and the arrow.
 * @param {number[]} points the start, the bend and the point of the arrow, each as x and y
 * @param {number} width pixels
 * @returns {[string, string]} both as paths
 */
const pathsOf = ([startX, startY, bendX, bendY, endX, endY], width) => {
  const angle = Math.atan2(bendY - endY, bendX - endX);
  const head = Math.max(LEAST_HEAD, HEAD * width + HEAD_MORE);
  const neckX = endX + head * Math.cos(angle);
  const neckY = endY + head * Math.sin(angle);
  const across = (width / 2 + BREADTH) * -Math.sin(angle);
  const down = (width / 2 + BREADTH) * Math.cos(angle);
  return [
    `M${text(startX, startY)}Q${text(bendX, bendY, neckX, neckY)}`,
    `M${text(endX, endY)}L${text(neckX + across, neckY + down)}L${text(neckX - across, neckY - down)}z`,
  ];
};

/** Draws a square of a matrix about its middle. */
const drawSquare = (group, unpaid, most) => {
  group.classList.toggle("over", "over" in group.dataset && unpaid > most);
  const [x, y] = group.dataset.middle.split(" ").map(Number);
  const side = sideFor(unpaid, most);
  const sizes = { x: x - side / 2, y: y - side / 2, width: side, height: side };
  for (const [name, size] of Object.entries(sizes)) {
    group.querySelector(".sq").setAttribute(name, size.toFixed(1));
  }
};

/** Draws a debt as a line with an arrow, along the curve that it has. */
const drawArrow = (group, width) => {
  const [line, tip] = pathsOf(group.dataset.curve.split(" ").map(Number), width);
  setAll(group.querySelector(".line"), { d: line, "stroke-width": width.toFixed(1) });
  setAll(group.querySelector(".case"), { d: line, "stroke-width": (width + CASE).toFixed(1) });
  setAll(group.querySelector(".tip"), { d: tip });
};

/**
 * Draws a debt, or a square of a matrix, of which so much stays unpaid.
 * @param {SVGElement} group the elements of the debt in the picture
 * @param {number} unpaid units
 * @param {number} most the units that the widest line or the largest square stands for
 * @param {[number, number]} widths the least and the greatest width of a line that is unpaid, in pixels
 */
export const drawFlow = (group, unpaid, most, widths) => {
  group.classList.toggle("done", unpaid <= 0);
  if (group.dataset.middle) {
    drawSquare(group, unpaid, most);
  } else {
    drawArrow(group, widthFor(unpaid, most, widths));
  }
};
