// The part of one bank, where the report has many: it is laid out when it is asked for. It stands in the page as what a
// browser without a script shows.
import { by } from "./elements.mjs";

/** Shows the part of the bank that the page's address names; none where it names none. */
const showPart = () => {
  const bank = /^#bank-(\d+)$/.exec(location.hash);
  const kept = bank && document.querySelector(`noscript[data-part="${bank[1]}"]`);
  const holder = by("part");
  holder.replaceChildren();
  if (!kept) return;
  // It was escaped when the page was made.
  holder.innerHTML = kept.textContent;
  const part = /** @type {HTMLElement} */ (holder.firstElementChild);
  part.tabIndex = -1;
  part.scrollIntoView();
  part.focus();
};

/** Shows the part of the bank that is asked for, now and from now on. */
export const layParts = () => {
  addEventListener("hashchange", showPart);
  showPart();
};
