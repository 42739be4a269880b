// How wide pictures are: they are drawn anew for another width, and for paper, where letters have their size as on the
// screen. Widths are kept: to ask for them with each picture would lay the page out once more.
import { by } from "./elements.mjs";

const PAPER = 672; // pixels across a sheet of A4 within its margins
const PLACES = ["picture", "curve-place"];

/** @returns {[number, number]} */
const widthsNow = () => [by("picture").clientWidth, by("curve-place").clientWidth];

/** Draws all pictures for widths: of the picture, and of the curve, in pixels. */
const drawFor = (desk, [wide, curveWide]) => {
  desk.wide = wide;
  desk.curveWide = curveWide;
  desk.redraw();
};

/**
 * Draws pictures anew from now on, when they have another width or the page is printed.
 * @param {import("./desk.mjs").Desk} desk
 */
export const listenWidths = (desk) => {
  const paper = { isLaid: false }; // while the page is laid out for a print
  [desk.wide, desk.curveWide] = widthsNow();
  const resized = new ResizeObserver(() => {
    const [wide, curveWide] = widthsNow();
    if (!paper.isLaid && (wide !== desk.wide || curveWide !== desk.curveWide)) drawFor(desk, [wide, curveWide]);
  });
  for (const id of PLACES) resized.observe(by(id));
  addEventListener("beforeprint", () => {
    paper.isLaid = true;
    drawFor(desk, [PAPER, PAPER]);
  });
  addEventListener("afterprint", () => {
    paper.isLaid = false;
    drawFor(desk, widthsNow());
  });
};
