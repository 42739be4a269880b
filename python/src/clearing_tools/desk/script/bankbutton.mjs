// A button that opens a bank, with the mark of one that one unit decides.
import { make } from "./elements.mjs";

/**
 * A button with the name of a bank, which opens it.
 * @param {import("./desk.mjs").Desk} desk
 * @param {number} bank
 * @returns {HTMLElement}
 */
export const bankButton = (desk, bank) => make(
  "button",
  { type: "button", class: "link", "data-open": bank, "data-bank": bank, click: () => desk.open(bank) },
  desk.name(bank),
  desk.units.markElement(bank),
);
