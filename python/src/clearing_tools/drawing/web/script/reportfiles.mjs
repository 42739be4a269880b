// Files of the report itself: each table as CSV, and each picture as SVG and as PNG.
import { by } from "./elements.mjs";
import { pictureOf, save, savePicture } from "./files.mjs";

const STYLES = /^(svg |\.)/; // rules of style that a chart may need

/**
 * The chart of a figure that is seen, as a picture.
 * @param {HTMLElement} figure
 * @returns {import("./files.mjs").Picture}
 */
const chartOf = (figure) => {
  const charts = /** @type {any[]} */ ([...figure.querySelectorAll("svg.chart")]);
  const chart = charts.find((one) => one.checkVisibility()) ?? charts[0];
  return pictureOf(chart, chart.viewBox.baseVal, STYLES);
};

/**
 * Shows the buttons that give files, and listens to them.
 * @param {Object<string, string>} tables the tables as CSV, by the keys of their figures
 */
export const giveFiles = (tables) => {
  for (const button of /** @type {NodeListOf<HTMLElement>} */ (document.querySelectorAll("button[data-file]"))) {
    const name = button.dataset.file;
    const [key, kind] = name.split(".");
    /** @type {HTMLElement} */ (button.closest(".get")).hidden = false;
    button.addEventListener("click", () => (
      kind === "csv" ? save(name, tables[key], "text/csv;charset=utf-8") : savePicture(name, chartOf(by(key)))
    ));
  }
};
