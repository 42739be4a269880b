// Files that a page gives to who sees it, and pictures as SVG and as PNG.
import { draw, make, setAll } from "./elements.mjs";

const SCALE = 2; // of a PNG against the page
const KEPT = 1000; // milliseconds for which a file that is given is kept

/**
 * A box in the units of a drawing.
 * @typedef {{x: number, y: number, width: number, height: number}} Box
 */

/**
 * A picture as a file: its text as SVG, and how wide and tall it is in pixels.
 * @typedef {{text: string, width: number, height: number}} Picture
 */

/**
 * Gives a file to who sees the page.
 * @param {string} name
 * @param {string | Blob} content
 * @param {string} kind its kind, such as image/png
 */
export const save = (name, content, kind) => {
  const blob = content instanceof Blob ? content : new Blob([content], { type: kind });
  const href = URL.createObjectURL(blob);
  make("a", { href, download: name }).click();
  setTimeout(() => URL.revokeObjectURL(href), KEPT);
};

/**
 * The rules of style of the page that a drawing needs, with the values of this moment in place of the tokens.
 * @param {RegExp} needed what the text of such a rule begins with
 * @returns {string}
 */
const rulesOf = (needed) => {
  const tokens = getComputedStyle(document.documentElement);
  return [...document.styleSheets]
    .flatMap((sheet) => [...sheet.cssRules])
    .map((rule) => rule.cssText)
    .filter((rule) => needed.test(rule) && !rule.includes("@"))
    .join("\n")
    .replace(/var\((--[a-z0-9-]+)\)/g, (_, name) => tokens.getPropertyValue(name).trim());
};

/**
 * A drawing of the page as a picture that stands alone, in the colours of the page.
 * @param {SVGSVGElement} svg
 * @param {Box} box what the picture shows
 * @param {RegExp} needed what the text of a rule of style begins with that the drawing needs
 * @param {Node[]} [more] what the picture has beside the drawing
 * @returns {Picture}
 */
export const pictureOf = (svg, box, needed, more = []) => {
  const { x, y, width, height } = box;
  const copy = /** @type {SVGSVGElement} */ (svg.cloneNode(true));
  copy.prepend(draw("style", {}, rulesOf(needed)), draw("rect", { class: "ground", x, y, width, height }));
  copy.append(...more);
  setAll(copy, { xmlns: "http://www.w3.org/2000/svg", viewBox: [x, y, width, height].join(" "), width, height });
  return { text: new XMLSerializer().serializeToString(copy), width, height };
};

/**
 * A picture as PNG.
 * @param {Picture} picture
 * @returns {Promise<Blob>} fails where the browser does not draw it
 */
export const pngOf = ({ text, width, height }) => new Promise((give, fail) => {
  const image = new Image();
  const link = URL.createObjectURL(new Blob([text], { type: "image/svg+xml" }));
  image.onload = () => {
    const canvas = document.createElement("canvas");
    canvas.width = SCALE * width;
    canvas.height = SCALE * height;
    canvas.getContext("2d").drawImage(image, 0, 0, canvas.width, canvas.height);
    URL.revokeObjectURL(link);
    canvas.toBlob(give, "image/png");
  };
  image.onerror = fail;
  image.src = link;
});

/**
 * Gives a picture as a file, in the kind that its name ends with.
 * @param {string} name one that ends with .svg or .png
 * @param {Picture} picture
 */
export const savePicture = async (name, picture) => {
  if (name.endsWith(".svg")) {
    save(name, picture.text, "image/svg+xml");
  } else {
    save(name, await pngOf(picture), "image/png");
  }
};
