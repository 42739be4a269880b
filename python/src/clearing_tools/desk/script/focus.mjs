// The focus, which stays where it was while parts of the page are made anew.
import { by } from "./elements.mjs";

/** The part of the page that an element stands in, by the id of what takes the focus in it; nothing elsewhere. */
const partOf = (element) => {
  if (element?.closest?.("#bank")) return "bank-name";
  return element?.closest?.("#changes") ? "changes" : "";
};

/**
 * Does something, and gives the focus back to what had it, by its id or its bank in the picture; where that is gone,
 * to the part that it stood in.
 * @param {() => void} work
 */
export const keepingFocus = (work) => {
  const held = /** @type {HTMLElement | null} */ (document.activeElement);
  const id = held?.id;
  const bank = held?.closest?.("svg") && held.dataset?.bank;
  const part = partOf(held);
  work();
  if (held?.isConnected && document.activeElement === held) return;
  /** @type {HTMLElement | null} */
  const again = id ? by(id) : bank ? document.querySelector(`#picture a[data-bank="${bank}"]`) : null;
  (again ?? by(part))?.focus({ preventScroll: true });
};
