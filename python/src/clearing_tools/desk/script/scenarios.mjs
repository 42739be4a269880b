// Scenarios: those of the file and those that are built here, of a cut and the losses of several banks.
import { post } from "./ask.mjs";
import { by, fieldBy, make } from "./elements.mjs";
import { labelled, showFault } from "./fields.mjs";
import { number } from "./texts.mjs";

const FAULTS = ["scenario-name", "scenario-cut", "scenario-losses"];

/** The choices of one kind of scenarios; none where there is no such scenario. */
const groupOf = (scenarios, title, isBuilt) => {
  const found = scenarios.map((one, at) => ({ ...one, value: at + 1 })).filter((one) => one.isBuilt === isBuilt);
  const choices = found.map(({ value, name }) => make("option", { value }, name));
  return choices.length ? [make("optgroup", { label: title }, ...choices)] : [];
};

/**
 * Shows the scenarios that can be chosen.
 * @param {import("./context.mjs").Context} context
 */
export const showScenarios = ({ network, view }) => {
  by("scenario").replaceChildren(
    make("option", { value: 0 }, "none"),
    ...groupOf(network.scenarios, "of the file", false),
    ...groupOf(network.scenarios, "built here", true),
  );
  fieldBy("scenario").value = String(view?.scenario ?? 0);
};

/** The fields of a loss: its bank and its amount. */
const lossRow = (context, bank = "", amount = "") => make("div", { class: "loss fields" },
  labelled("Bank", { class: "loss-bank", list: "names", autocomplete: "off", value: bank }),
  labelled(`Loss${context.inUnits}`, {
    class: "loss-amount",
    inputmode: "numeric",
    autocomplete: "off",
    value: amount,
  }),
  make(
    "button",
    {
      type: "button",
      "aria-label": "Take this loss out",
      click: (event) => event.target.closest(".loss").remove(),
    },
    "×",
  ),
);

/** A name that no scenario has: of a copy, or of one that is new. */
const freeName = (scenarios, copied) => {
  const taken = new Set(scenarios.map(({ name }) => name));
  const called = (at) => {
    const which = at > 1 ? ` ${at}` : "";
    return copied ? `${copied.name} (copy${which})` : `My scenario${which}`;
  };
  let at = 1;
  while (taken.has(called(at))) at += 1;
  return called(at);
};

const showNoFault = () => {
  for (const field of FAULTS) showFault(field, null);
};

/** Fills the form and opens it: with a copy of a scenario, or with the cut and the losses at hand. */
const fill = (context, copied) => {
  const { network, view } = context;
  const { cut, losses } = copied ?? view;
  fieldBy("scenario-name").value = freeName(network.scenarios, copied);
  fieldBy("scenario-cut").value = String(cut);
  const rows = losses.map(([bank, amount]) => lossRow(context, network.names[bank], amount));
  by("losses-rows").replaceChildren(...(rows.length ? rows : [lossRow(context)]));
  showNoFault();
  /** @type {HTMLDetailsElement} */ (by("build")).open = true;
  fieldBy("scenario-name").focus();
  fieldBy("scenario-name").select();
};

/**
 * The losses that are typed: the place of each bank, and its amount as it is typed. A row without both is none.
 * @returns {{losses?: [number, string][], fault?: import("./ask.mjs").Fault}}
 */
const typedLosses = ({ network }) => {
  /** @type {[number, string][]} */
  const losses = [];
  for (const row of by("losses-rows").children) {
    const typed = (kind) => /** @type {HTMLInputElement} */ (row.querySelector(kind)).value;
    const bank = typed(".loss-bank").trim();
    const amount = typed(".loss-amount");
    if (!bank && !amount.trim()) continue;
    const place = network.names.indexOf(bank);
    if (place < 0) return { fault: { said: bank ? `no bank is called ${bank}` : "a loss has a bank" } };
    losses.push([place, amount]);
  }
  return { losses };
};

/** Takes the scenario that is typed into the list, and chooses it. */
const build = async (desk) => {
  showNoFault();
  const { losses, fault: typed } = typedLosses(desk);
  if (typed) {
    showFault("scenario-losses", typed);
    return;
  }
  const { value, fault } = await post("scenario", {
    name: fieldBy("scenario-name").value,
    cut: fieldBy("scenario-cut").value,
    losses,
  });
  if (fault) {
    if (!showFault(fault.field, fault)) showFault("scenario-losses", fault);
    return;
  }
  desk.network.scenarios = value.scenarios;
  showScenarios(desk);
  /** @type {HTMLDetailsElement} */ (by("build")).open = false;
  desk.change({ set: "scenario", value: value.number }, "scenario");
};

/**
 * Listens to the form in which scenarios are built.
 * @param {import("./desk.mjs").Desk} desk
 */
export const listenScenarios = (desk) => {
  by("losses-rows").append(lossRow(desk));
  by("build-open").addEventListener("click", () => fill(desk, null));
  by("build-copy").addEventListener("click", () => fill(
    desk,
    desk.network.scenarios[Number(fieldBy("scenario").value) - 1] ?? null,
  ));
  by("loss-more").addEventListener("click", () => {
    const row = lossRow(desk);
    by("losses-rows").append(row);
    row.querySelector("input").focus();
  });
  by("build-form").addEventListener("submit", (event) => {
    event.preventDefault();
    build(desk);
  });
};

/**
 * What choosing a scenario does to the cut, in words; nothing where it stays.
 * @param {import("./compare.mjs").State | null} before
 * @param {import("./compare.mjs").State} now
 * @returns {string}
 */
export const cutWords = (before, now) => (
  before && now.scenario !== before.scenario && now.cut !== before.cut
    ? `The scenario sets the cut to ${number(now.cut)} per mille; it was ${number(before.cut)}. Undo takes it back.`
    : ""
);
