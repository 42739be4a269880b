// The figures above the picture: as it was, as it is, and what differs; and who falls next.
import { fallen, saved, sums } from "./compare.mjs";
import { by, make } from "./elements.mjs";
import { listed } from "./sentences.mjs";
import { number } from "./texts.mjs";

const MOST_NAMES = 3;

/** An amount of all banks as a figure. */
const amountFigure = (id, title, scale, was, is) => ({
  id,
  title,
  unit: scale.words,
  was: scale.number(was),
  is: scale.number(is),
  note: is === was ? "" : `${is > was ? "+" : ""}${scale.number(is - was)}`,
});

/** Who joins those in default, and who leaves them. */
const turnedWords = (desk) => {
  const { against, view } = desk;
  const words = (sign, banks) => {
    const names = banks.map((bank) => `${desk.short(bank)}${desk.units.markOf(bank)}`);
    return banks.length ? `${sign}${number(banks.length)}: ${listed(names, MOST_NAMES)}` : "";
  };
  return [words("+", fallen(against, view)), words("−", saved(against, view))].filter(Boolean).join("; ");
};

const figuresOf = (desk) => {
  const was = sums(desk.against);
  const is = sums(desk.view);
  const scale = desk.money.figures(Math.max(was.unpaid, is.unpaid, was.keeps, is.keeps));
  return [
    {
      id: "figure-defaults",
      title: "In default",
      unit: "banks",
      was: number(was.defaults),
      is: number(is.defaults),
      note: turnedWords(desk),
    },
    amountFigure("figure-unpaid", "Unpaid", scale, was.unpaid, is.unpaid),
    amountFigure("figure-keeps", "All keep", scale, was.keeps, is.keeps),
  ];
};

const figureElement = ({ id, title, unit, was, is, note }, isSame) => make("div", { id },
  make("dt", {}, `${title} `, make("small", {}, unit)),
  make("dd", {}, ...(isSame ? [] : [make("span", { class: "was" }, was), " → "]), make("b", {}, is)),
  make("dd", { class: "note" }, isSame ? "" : note || "as it is there"),
);

/**
 * Shows the figures.
 * @param {import("./desk.mjs").Desk} desk
 */
export const showFigures = (desk) => {
  by("figures").replaceChildren(
    ...figuresOf(desk).map((figure) => figureElement(figure, desk.isSame)),
    make("div", { id: "figure-next" },
      make("dt", {}, "Next to fall at a cut ", make("small", {}, "of all cash")),
      make("dd", { id: "next" }),
      make("dd", { class: "note", id: "next-who" }),
    ),
  );
  showNext(desk);
};

const share = ({ cut }) => (cut === null ? "no cut" : `${cut / 10}%`);

/**
 * Shows who falls next when all cash is cut further; it is known once the curve is.
 * @param {import("./desk.mjs").Desk} desk
 */
export const showNext = (desk) => {
  const { breaking, view, against, isSame } = desk;
  if (!by("next")) return;
  const next = breaking.nextOf(view);
  const before = isSame || against.case ? null : breaking.nextOf(against);
  const was = (text) => make("span", { class: "was" }, text);
  by("next").replaceChildren(...(next
    ? [...(before ? [was(share(before)), " → "] : []), make("b", {}, share(next))]
    : [was("not asked yet")]));
  by("next-who").textContent = next ? listed(next.banks.map((bank) => desk.short(bank)), MOST_NAMES) : "";
};
