// States that are kept under names, and which of them the state at hand is held against.
import { post } from "./ask.mjs";
import { by, fieldBy, make } from "./elements.mjs";
import { showFault } from "./fields.mjs";

const dialog = () => /** @type {HTMLDialogElement} */ (by("keep-dialog"));

/** The tabs: the kept states, the state at hand where it is none of them, and a button that keeps it. */
const tabsOf = (desk) => {
  const { kept, view } = desk;
  const isKept = Boolean(desk.keptAs(view));
  const tab = (name, state, note = "") => make(
    "button",
    {
      type: "button",
      "aria-current": state === view.id ? "page" : null,
      "data-state": state,
      title: note || null,
      click: () => desk.go(state),
    },
    name,
  );
  const opens = { type: "button", id: "keep-open", class: "plus", "aria-haspopup": "dialog" };
  return [
    ...kept.map(({ name, state, note }) => tab(name, state, note)),
    ...(isKept ? [] : [tab(`${desk.nameOf(view)} (not kept)`, view.id)]),
    make("button", { ...opens, click: () => openKeep(desk) }, isKept ? "Name and note" : "+ Keep"),
  ];
};

/** The choices of what is held against: the kept states, and the other cases. */
const choicesOf = ({ kept, network, againstKey }) => {
  const states = kept.map(({ state, name }) => [`state-${state}`, name]);
  const cases = network.others.map(({ title, asOf }, at) => [
    `case-${at + 1}`,
    [title, asOf].filter(Boolean).join(", "),
  ]);
  return [...states, ...cases].map(([value, words]) => make(
    "option",
    { value, selected: value === againstKey },
    words,
  ));
};

/**
 * Shows the kept states as tabs, and what the state at hand can be held against.
 * @param {import("./desk.mjs").Desk} desk
 */
export const showKept = (desk) => {
  by("tabs").replaceChildren(...tabsOf(desk));
  requestAnimationFrame(showTab);
  by("against").replaceChildren(...choicesOf(desk));
  by("now-name").textContent = desk.nameOf(desk.view);
};

/** Brings the tab of the state at hand into view, sideways alone: the page stays where it is. */
const showTab = () => {
  const tabs = by("tabs");
  const here = tabs.querySelector("[aria-current]")?.getBoundingClientRect();
  const box = tabs.getBoundingClientRect();
  if (here && here.left < box.left) tabs.scrollLeft += here.left - box.left;
  if (here && here.right > box.right) tabs.scrollLeft += here.right - box.right;
};

/** Opens the form in which the state at hand is named. */
const openKeep = (desk) => {
  const { view } = desk;
  const one = desk.keptAs(view);
  fieldBy("keep-name").value = one?.name ?? desk.wordsOf(view);
  fieldBy("keep-note").value = one?.note ?? "";
  by("drop").hidden = !one || view.id === 0;
  showFault("keep-name", null);
  dialog().showModal();
  fieldBy("keep-name").select();
};

/** Keeps the state at hand under the name that is typed. Another name takes the place of the one before. */
const keep = async (desk) => {
  const { id } = desk.view;
  const one = desk.keptAs(desk.view);
  const name = fieldBy("keep-name").value.trim();
  const kept = await post("keep", { state: id, name, note: fieldBy("keep-note").value });
  const isRenamed = !kept.fault && one && one.name !== name && id !== 0;
  return isRenamed ? post("drop", { name: one.name }) : kept;
};

/**
 * Takes the states that are kept from now on, or shows why they stay as they were.
 * @param {import("./desk.mjs").Desk} desk
 * @param {import("./ask.mjs").Answer} answer
 */
const take = (desk, { value, fault }) => {
  if (fault) {
    if (!showFault("keep-name", fault)) desk.trouble(fault);
    return;
  }
  desk.kept = value;
  dialog().close();
  desk.showAgain();
};

/**
 * Listens to the form in which a state is named, and to the list of what it is held against.
 * @param {import("./desk.mjs").Desk} desk
 */
export const listenKept = (desk) => {
  by("keep-form").addEventListener("submit", async (event) => {
    event.preventDefault();
    take(desk, await keep(desk));
  });
  by("keep-cancel").addEventListener("click", () => dialog().close());
  by("drop").addEventListener("click", async () => {
    take(desk, await post("drop", { name: desk.keptAs(desk.view).name }));
  });
  by("against").addEventListener("change", () => desk.holdAgainst(fieldBy("against").value));
};
