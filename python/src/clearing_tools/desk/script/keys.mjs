// What the keyboard and the pointer do on the whole page: undo and redo, menus that close, and a bank that is pointed
// at in one place and marked in all.
import { by } from "./elements.mjs";

const WRITING = "input[type=text], input[type=search], select, textarea";

const closeMenus = () => {
  /** @type {NodeListOf<HTMLDetailsElement>} */
  const menus = document.querySelectorAll("details.menu[open]");
  for (const menu of menus) menu.open = false;
};

/** What a key does with Control or Command; nothing where it does nothing. */
const actOf = (desk, { key, shiftKey }) => {
  const undo = () => desk.undo();
  const redo = () => desk.redo();
  return { z: shiftKey ? redo : undo, y: redo }[key.toLowerCase()];
};

const onKey = (desk, event) => {
  if (event.key === "Escape") closeMenus();
  // In a field these keys undo what is typed.
  if (!(event.ctrlKey || event.metaKey) || event.target?.matches?.(WRITING)) return;
  const act = actOf(desk, event);
  if (!act) return;
  event.preventDefault();
  act();
};

/** Marks a bank in all places; none where none is pointed at. */
const markBank = ({ target }) => {
  const bank = target.closest?.("[data-bank]")?.dataset.bank;
  for (const element of document.querySelectorAll(".pointed")) element.classList.remove("pointed");
  if (bank === undefined) return;
  for (const element of document.querySelectorAll(`[data-bank="${bank}"]`)) element.classList.add("pointed");
};

/** Opens the bank of the picture that is clicked. */
const openBank = (desk, event) => {
  const bank = event.target.closest("a[data-bank]");
  if (!bank) return;
  event.preventDefault();
  desk.open(Number(bank.dataset.bank));
};

/**
 * Listens to the keyboard and the pointer.
 * @param {import("./desk.mjs").Desk} desk
 */
export const listenKeys = (desk) => {
  addEventListener("keydown", (event) => onKey(desk, event));
  addEventListener("pointerover", markBank);
  addEventListener("focusin", markBank);
  by("picture").addEventListener("click", (event) => openBank(desk, event));
};
