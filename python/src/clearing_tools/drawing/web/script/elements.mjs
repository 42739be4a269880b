// Elements of a page: found by their ids, and built by one helper each for the page and for drawings. What is text
// stands as text: no name is ever read as HTML.

const SVG = "http://www.w3.org/2000/svg";

/**
 * What an element has: a value by the name of each attribute, `true` for one without a value, nothing where it is
 * left out, or a function, which is what an event of that name does.
 * @typedef {Object<string, string | number | boolean | null | undefined | ((event: any) => unknown)>} Attributes
 */

/**
 * The element of an id, which the page has.
 * @param {string} id
 * @returns {HTMLElement}
 */
export const by = (id) => document.getElementById(id);

/**
 * The same of a field, a list of choices or a button, each of which has a value and can be disabled.
 * @param {string} id
 * @returns {HTMLInputElement}
 */
export const fieldBy = (id) => /** @type {HTMLInputElement} */ (document.getElementById(id));

/**
 * Gives an element its attributes and what stands in it.
 * @template {Element} T
 * @param {T} element
 * @param {Attributes} attributes
 * @param {(Node | string | null | undefined)[]} inner what stands in it; nothing is passed over
 * @returns {T} the element
 */
const filled = (element, attributes, inner) => {
  for (const [name, value] of Object.entries(attributes)) {
    if (typeof value === "function") {
      element.addEventListener(name, value);
    } else if (value === true) {
      element.setAttribute(name, "");
    } else if (value !== false && value !== null && value !== undefined) {
      element.setAttribute(name, String(value));
    }
  }
  element.append(...inner.filter((part) => part !== null && part !== undefined));
  return element;
};

/**
 * An element of the page.
 * @param {string} tag
 * @param {Attributes} [attributes]
 * @param {...(Node | string | null | undefined)} inner what stands in it, in order
 * @returns {HTMLElement}
 */
export const make = (tag, attributes = {}, ...inner) => filled(document.createElement(tag), attributes, inner);

/**
 * An element of a drawing.
 * @param {string} tag
 * @param {Attributes} [attributes]
 * @param {...(Node | string | null | undefined)} inner what stands in it, in order
 * @returns {SVGElement}
 */
export const draw = (tag, attributes = {}, ...inner) => filled(
  /** @type {SVGElement} */ (document.createElementNS(SVG, tag)),
  attributes,
  inner,
);

/**
 * Sets attributes of an element that is there.
 * @param {Element} element
 * @param {Object<string, string | number>} attributes
 */
export const setAll = (element, attributes) => {
  for (const [name, value] of Object.entries(attributes)) element.setAttribute(name, String(value));
};
