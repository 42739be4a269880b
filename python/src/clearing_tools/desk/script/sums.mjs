// All figures to the last unit, with the other end where default costs.
import { atGreatest, soundAtGreatest, sums } from "./compare.mjs";
import { by, make } from "./elements.mjs";
import { listed } from "./sentences.mjs";
import { number } from "./texts.mjs";

const FIGURES = [
  { key: "defaults", title: "In default", words: "banks cannot pay all that they owe" },
  { key: "pays", title: "Paid", words: "is what banks pay, to banks and outside" },
  { key: "unpaid", title: "Unpaid", words: "of all that banks owe" },
  { key: "keeps", title: "Kept", words: "is what the banks have left" },
  { key: "cash", title: "Cash", words: "is what the shock leaves" },
  { key: "lost", title: "Costs of default", words: "of the estates of banks in default" },
];

/** What is said of the banks that are sound at the greatest payments. */
const soundWords = (desk) => {
  const sound = soundAtGreatest(desk.view);
  if (!sound.length) return "";
  const names = listed(sound.map((bank) => desk.name(bank)));
  return (
    `At the greatest payments that clear, ${number(sound.length)} of those in default `
    + `${sound.length === 1 ? "is" : "are"} sound: ${names}.`
  );
};

/**
 * Shows all figures to the last unit.
 * @param {import("./desk.mjs").Desk} desk
 */
export const showSums = (desk) => {
  const { money, network, view } = desk;
  const exact = (units) => (network.hasUnit ? money.with(money.exact(units)) : money.say(units));
  const text = (key, value) => (key === "defaults" ? number(value) : exact(value));
  const is = sums(view);
  const greatest = atGreatest(view);
  const other = greatest && sums(greatest);
  by("ends").hidden = !greatest;
  by("at-greatest").textContent = soundWords(desk);
  by("sums").replaceChildren(...FIGURES.map(({ key, title, words }) => make("div", {},
    make("dt", {}, title),
    make("dd", {},
      make("span", { class: "value", id: `sum-${key}` }, text(key, is[key])),
      " ",
      make("span", { class: "dim" }, `${words}.`),
      other && key !== "cash"
        ? make("span", { id: `greatest-${key}` }, ` At the greatest: ${text(key, other[key])}.`)
        : null,
    ),
  )));
};
