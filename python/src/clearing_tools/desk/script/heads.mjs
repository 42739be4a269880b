// What is said above the picture and about the case: the title of the state, what the picture is in, the head of a
// print, and what the case says of itself.
import { by, make } from "./elements.mjs";
import { cut } from "./sentences.mjs";
import { apart, many } from "./texts.mjs";
import { told } from "./title.mjs";

const MOST_TITLE = 40; // signs of the case's title at the head of the page
const SEPARATOR = " · ";

const sizeOf = ({ names, claims }) => `${many(names.length, "bank")} and ${many(claims.length, "debt")}`;
const titleOf = (network) => network.title || sizeOf(network);

/** The date and the test of a case, each where it is stated; the date is missed where it is not. */
const frameOf = ({ asOf, test }) => [
  asOf ? `as of ${asOf}` : "date not stated",
  test ? `a test of ${test}` : "",
];

/**
 * Shows the title of the state at hand against the other.
 * @param {import("./desk.mjs").Desk} desk
 */
export const showTitle = (desk) => {
  const name = (bank) => `${apart(desk.short(bank))}${desk.units.markOf(bank)}`;
  const say = (units) => desk.say(units);
  by("told").textContent = told(desk.against, desk.view, desk.isSame, { name, say });
};

/** What stands beside the colours of the picture, by its form. */
const notesOf = (desk) => {
  const { form, writtenFrom, isAllWritten, isBySize } = desk.picture;
  if (form === "matrix") {
    return [
      isBySize ? "Banks stand by what they owe, the most first." : "",
      "A block opens; a bank opens its account.",
    ];
  }
  if (form !== "circle") return [];
  const chosen = desk.bank === null ? "" : apart(desk.short(desk.bank));
  return [
    writtenFrom && !isAllWritten ? `Amounts from ${desk.scale.number(writtenFrom)} on are written.` : "",
    chosen ? `${chosen} is chosen: its debts and claims are full, the rest faint.` : "",
  ];
};

/**
 * Shows what the picture is in, and what of it is coloured.
 * @param {import("./desk.mjs").Desk} desk
 */
export const showUnit = (desk) => {
  const than = desk.isSame ? "" : ` more than in “${desk.againstName}”`;
  const unit = `In colour: what is unpaid${than}, ${desk.scale.words || "in the currency"}.`;
  by("picture-unit").textContent = [unit, ...notesOf(desk)].filter(Boolean).join(" ");
};

/**
 * Shows what stands at the head of a print alone.
 * @param {import("./context.mjs").Context} context
 */
export const showPaper = ({ network, isSame, nowName, againstName }) => {
  by("paper").textContent = [
    titleOf(network),
    ...frameOf(network),
    isSame ? `“${nowName}”` : `“${nowName}” against “${againstName}”`,
    network.program,
  ].filter(Boolean).join(SEPARATOR);
};

/**
 * Shows what the case says of itself, and gives the names of its banks to the fields that take one.
 * @param {import("./context.mjs").Context} context
 */
export const showCase = ({ network, money }) => {
  const title = titleOf(network);
  by("case").textContent = cut(title, MOST_TITLE);
  by("case").title = title;
  document.title = `${title} – the desk`;
  by("about").textContent = [
    network.title ? sizeOf(network) : "",
    ...frameOf(network),
    network.hasUnit
      ? `one unit of account is ${money.with(money.exact(1))}`
      : "amounts in units of account",
    ...network.notes,
  ].filter(Boolean).join(SEPARATOR);
  document.body.append(
    make("datalist", { id: "names" }, ...network.names.map((name) => make("option", { value: name }))),
  );
};
