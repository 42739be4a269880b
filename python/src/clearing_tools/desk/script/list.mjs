// The picture of a small screen: a list by bank, of what each leaves unpaid and to whom.
import { draw, make } from "./elements.mjs";
import { mark } from "./marks.mjs";
import { listed } from "./sentences.mjs";

const AT_FIRST = 30; // banks
const WHOM = 4; // creditors of a bank that are named
const TALL = 12; // of a bar, in pixels
const LEAST_BAR = 0.7; // hundredths of the width

/** The banks that leave something unpaid, in this state or the other, the most first. */
const banksOf = ({ now, more }) => now
  .map((_, bank) => bank)
  .filter((bank) => now[bank] || more[bank])
  .sort((one, other) => now[other] - now[one] || Math.abs(more[other]) - Math.abs(more[one]));

/** To whom each of some banks leaves more unpaid, the most first: creditors with units, by the debtor. */
const whomOf = (matter, banks) => {
  const found = new Map(banks.map((bank) => [bank, []]));
  for (const { debtor, creditor, unpaid, more } of matter.flows) {
    const units = matter.isSame ? unpaid : more;
    if (units) found.get(debtor)?.push([creditor, units]);
  }
  for (const list of found.values()) list.sort((one, other) => Math.abs(other[1]) - Math.abs(one[1]));
  return found;
};

/** How a bank stands against the other state, in words. */
const differenceWords = ({ scale, againstName }, matter, bank) => {
  if (matter.isSame) return "";
  const more = matter.more[bank];
  if (!more) return `As “${againstName}”. `;
  return `${more > 0 ? "+" : ""}${scale.number(more)} against “${againstName}”. `;
};

const wordsOf = (desk, matter, bank, whom) => {
  const isNew = !matter.isSame && matter.was[bank] === "sound" && matter.states[bank] !== "sound";
  const names = whom.map(([creditor, units]) => `${desk.short(creditor)} ${desk.scale.number(units)}`);
  const to = names.length ? `To ${listed(names, WHOM)}` : "";
  return `${differenceWords(desk, matter, bank)}${isNew ? "Newly in default. " : ""}${to}`.trim();
};

/** What was unpaid before in grey, what is unpaid more in the accent; what is unpaid less, hollow. */
const barOf = (matter, bank, most) => {
  const part = (units) => 100 * units / most;
  const both = Math.min(matter.now[bank], matter.isSame ? 0 : matter.before[bank]);
  const more = Math.max(0, matter.more[bank]);
  const less = Math.max(0, -matter.more[bank]);
  return draw(
    "svg",
    {
      class: "bar",
      width: "100%",
      height: TALL,
      viewBox: `0 0 100 ${TALL}`,
      preserveAspectRatio: "none",
      "aria-hidden": "true",
    },
    draw("rect", { class: "was", width: part(both), height: TALL }),
    draw("rect", { class: "more", x: part(both), width: more && Math.max(LEAST_BAR, part(more)), height: TALL }),
    draw("rect", { class: "less", x: part(both), width: part(less), height: TALL }),
  );
};

const itemOf = (desk, matter, bank, most, whom) => make("li", { "data-bank": bank, class: "listed" },
  make("a", { class: "head", href: "#bank", "data-bank": bank },
    mark(matter.states[bank]),
    make("b", {}, desk.network.shown[bank], desk.units.markOf(bank)),
    make("span", { class: "amount" }, desk.scale.number(matter.now[bank])),
  ),
  barOf(matter, bank, most),
  make("p", {}, wordsOf(desk, matter, bank, whom)),
);

/**
 * Shows the banks that leave something unpaid as a list.
 * @param {import("./desk.mjs").Desk} desk
 * @param {import("./matter.mjs").Matter} matter
 * @param {HTMLElement} place
 * @returns {import("./picture.mjs").Picture}
 */
export const showList = (desk, matter, place) => {
  const banks = banksOf(matter);
  const most = Math.max(1, ...banks.map((bank) => Math.max(matter.now[bank], matter.before[bank])));
  const shown = desk.isListWhole ? banks : banks.slice(0, AT_FIRST);
  const whom = whomOf(matter, shown);
  const items = shown.map((bank) => itemOf(desk, matter, bank, most, whom.get(bank)));
  const whole = () => {
    desk.isListWhole = true;
    showList(desk, matter, place);
  };
  place.replaceChildren(
    items.length
      ? make("ul", { class: "netlist" }, ...items)
      : make("p", { class: "dim" }, "Nothing is unpaid."),
  );
  if (banks.length > shown.length) {
    const words = `Show ${banks.length - shown.length} more`;
    place.append(make("button", { type: "button", id: "list-more", click: whole }, words));
  }
  return { form: "list" };
};
