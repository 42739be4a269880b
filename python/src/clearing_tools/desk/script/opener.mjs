// A button that opens something and closes it again.
import { make } from "./elements.mjs";

/**
 * A button that opens something and closes it again.
 * @param {(Node | string)[]} words
 * @param {(isOpen: boolean) => unknown} open is told whether it is open from now on
 * @param {import("./elements.mjs").Attributes} [attributes] others of the button
 * @returns {HTMLElement}
 */
export const opener = (words, open, attributes = {}) => {
  const turn = ({ currentTarget: button }) => {
    const isOpen = button.getAttribute("aria-expanded") !== "true";
    button.setAttribute("aria-expanded", String(isOpen));
    return open(isOpen);
  };
  return make(
    "button",
    { type: "button", class: "opens", "aria-expanded": "false", ...attributes, click: turn },
    ...words,
  );
};
