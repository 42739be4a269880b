// The controls of the state at hand: sliders and fields, the scenario chosen, undo and redo, and what can be taken
// away.
import { whyNoScenario } from "./changed.mjs";
import { by, fieldBy } from "./elements.mjs";
import { showFault } from "./fields.mjs";
import { newest } from "./newest.mjs";

const SLIDERS = ["cut", "keep"]; // per mille
const TAKES = ["session", "case", "scenarios", "scenario", "report", "evidence", "banks", "debts"];

const linkTo = (name) => /** @type {HTMLAnchorElement} */ (by(name));

/** How far a slider is filled. */
const fill = (slide, perMille) => slide.style.setProperty("--v", `${perMille / 10}%`);

const showSliders = (view) => {
  for (const name of SLIDERS) {
    const slide = fieldBy(`${name}-slide`);
    if (document.activeElement !== slide) slide.value = view[name];
    fill(slide, view[name]);
    fieldBy(name).value = view[name];
  }
};

/** What can be taken away of a state, and what of it is said beside. */
const showTakes = ({ view, base, network }) => {
  for (const what of TAKES) linkTo(`take-${what}`).href = `take/${view.id}/${what}`;
  by("take-scenario-line").hidden = !view.isScenario;
  by("take-scenarios-line").hidden = !network.scenarios.length;
  by("no-scenario").textContent = view.isScenario ? "" : whyNoScenario(base, view);
  by("note-report").textContent = view.greatest ? ", with both ends where default costs" : "";
  by("note-evidence").textContent = view.greatest ? ", without costs of default" : "";
};

/** The link to a state, which is the page's address too. */
const showLink = ({ id }) => {
  const link = `#state-${id}`;
  linkTo("here").href = link;
  if (location.hash !== link) history.replaceState(null, "", link);
};

/**
 * The state that the page's address names; nothing where it names none.
 * @returns {number | null}
 */
export const stateOfLink = () => {
  const found = /^#state-([0-9]{1,7})$/.exec(location.hash);
  return found ? Number(found[1]) : null;
};

/**
 * Shows the controls as they are for the state at hand.
 * @param {import("./desk.mjs").Desk} desk
 */
export const showControls = (desk) => {
  const { view, line } = desk;
  showSliders(view);
  fieldBy("scenario").value = String(view.scenario);
  fieldBy("build-copy").disabled = !view.scenario;
  const losses = view.losses.map(([bank, amount]) => `${desk.name(bank)} ${desk.exactly(amount)}`);
  by("losses").textContent = losses.length ? `Beside the cut is lost: ${losses.join(", ")}.` : "";
  for (const field of [...SLIDERS, "scenario"]) showFault(field, null);
  fieldBy("undo").disabled = line.before === undefined;
  fieldBy("redo").disabled = line.after === undefined;
  showLink(view);
  showTakes(desk);
};

/** Listens to a slider and its field: while it moves, each state takes the place of the one before. */
const listenSlider = (desk, name) => {
  const slide = fieldBy(`${name}-slide`);
  const moving = { from: null }; // the state from which it is moved
  const ask = newest(({ value, from }) => desk.send({
    what: { set: name, value },
    from,
    instead: desk.line.now !== from,
  }));
  slide.addEventListener("input", () => {
    moving.from ??= desk.view.id;
    fill(slide, Number(slide.value));
    ask({ value: slide.value, from: moving.from });
  });
  slide.addEventListener("change", () => {
    moving.from = null;
  });
  const field = fieldBy(name);
  field.addEventListener("change", () => desk.change({ set: name, value: field.value }));
};

/** Copies the link to the state at hand. */
const copyLink = async () => {
  await navigator.clipboard?.writeText(linkTo("here").href).catch(() => {});
  by("copied").textContent = "Copied.";
};

/**
 * Listens to the controls.
 * @param {import("./desk.mjs").Desk} desk
 */
export const listenControls = (desk) => {
  for (const name of SLIDERS) listenSlider(desk, name);
  const scenario = fieldBy("scenario");
  scenario.addEventListener("change", () => desk.change({ set: "scenario", value: Number(scenario.value) }));
  by("undo").addEventListener("click", () => desk.undo());
  by("redo").addEventListener("click", () => desk.redo());
  by("copy-link").addEventListener("click", copyLink);
  addEventListener("hashchange", () => {
    const state = stateOfLink();
    if (state !== null && state !== desk.view.id) desk.go(state);
  });
};
