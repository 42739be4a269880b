// The field that finds a bank by a part of its name.
import { by, fieldBy, make } from "./elements.mjs";
import { matches } from "./find.mjs";

/** The banks that are sought. */
const soughtIn = ({ network }) => matches(network.names, network.labels, fieldBy("find").value);

/** Opens a bank that was found. */
const open = (desk, bank) => {
  by("found").replaceChildren();
  fieldBy("find").value = "";
  desk.open(bank);
};

/** Shows the banks that are found. */
const showFound = (desk) => {
  const banks = soughtIn(desk);
  const isNone = fieldBy("find").value.trim() && !banks.length;
  by("found").replaceChildren(...banks.map((bank) => make("li", {},
    make("button", { type: "button", click: () => open(desk, bank) }, desk.name(bank)),
  )));
  by("find-none").textContent = isNone ? "No bank has this in its name." : "";
};

/**
 * Listens to the field: Enter takes the first bank, Escape none.
 * @param {import("./desk.mjs").Desk} desk
 */
export const listenFinder = (desk) => {
  by("find").addEventListener("input", () => showFound(desk));
  by("find").addEventListener("keydown", ({ key }) => {
    const [first] = soughtIn(desk);
    if (key === "Enter" && first !== undefined) open(desk, first);
    if (key === "Escape") {
      by("found").replaceChildren();
      by("find-none").textContent = "";
    }
  });
};
