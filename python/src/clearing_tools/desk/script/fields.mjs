// Fields that are typed in, and the faults that are shown at them.
import { by, fieldBy, make } from "./elements.mjs";

/**
 * Shows a fault of the program at a field, or takes it away.
 * @param {string} field its id
 * @param {import("./ask.mjs").Fault | null} fault nothing takes it away
 * @returns {boolean} whether the page has a place for it
 */
export const showFault = (field, fault) => {
  const place = by(`${field}-fault`);
  if (!place) return false;
  place.hidden = !fault;
  place.textContent = fault ? `${fault.said}${fault.meaning ? ` — ${fault.meaning}.` : ""}` : "";
  turn(place, "role", fault && "alert");
  const input = by(field);
  if (input) turn(input, "aria-invalid", fault && "true");
  return true;
};

const turn = (element, attribute, value) => {
  if (value) {
    element.setAttribute(attribute, value);
  } else {
    element.removeAttribute(attribute);
  }
};

/**
 * The place of a field's fault.
 * @param {string} id of the field
 * @returns {HTMLElement}
 */
export const faultPlace = (id) => make("p", { class: "fault", id: `${id}-fault`, hidden: true });

/**
 * An input with its words above it.
 * @param {string} words
 * @param {import("./elements.mjs").Attributes} attributes of the input
 * @returns {HTMLElement}
 */
export const labelled = (words, attributes) => make("label", {},
  make("span", {}, words),
  make("input", { type: "text", ...attributes }),
);

/**
 * A field with a fault of its own.
 * @param {string} id
 * @param {string} words above it
 * @param {string | number} value what stands in it
 * @param {import("./elements.mjs").Attributes} [more] other attributes of it
 * @returns {HTMLElement}
 */
export const textField = (id, words, value, more = {}) => labelled(words, {
  id,
  value,
  autocomplete: "off",
  "aria-describedby": `${id}-fault`,
  ...more,
});

/**
 * What is typed in a field; nothing where it is not there.
 * @param {string} id
 * @returns {string | undefined}
 */
export const typedIn = (id) => fieldBy(id)?.value;
