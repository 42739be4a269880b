// The part of one bank: how it stands, its account, what is asked of it, what can be changed of it, and who owes it.
import { accountAgainst } from "./account.mjs";
import { accountTable } from "./accounttable.mjs";
import { see } from "./ask.mjs";
import { answersShown, askPart, showAnswers } from "./bankasks.mjs";
import { changePart, retypeDebt, typedDebt } from "./bankchange.mjs";
import { debtOf, owedTable } from "./bankdebts.mjs";
import { atGreatest, owesOf, paysOf, unpaidOf } from "./compare.mjs";
import { by, make } from "./elements.mjs";
import { keepingFocus } from "./focus.mjs";
import { mark } from "./marks.mjs";
import { MARK } from "./units.mjs";

const OPENS = ["add-debt", "change-bank", "owed-part"]; // the parts that open
const AT_THE_ENDS = ["state", "paid", "outsidePaid", "lost", "equity"]; // what may be another at the greatest payments
const ADDS_UP = "The account adds up; it does not say which debtor, or which loss, decided.";

/** What the label of a bank means. */
const labelWords = (desk, bank) => {
  const { view, money } = desk;
  const labels = {
    sound: "Sound: it pays all it owes.",
    fundamental: "Label own fundamentals: it could not pay even if all its debtors paid in full.",
    contagion: `Label contagion: with its ${money.whole.number(view.left[bank])} of cash `
      + "it could pay if all its debtors did.",
    gridlock: "Gridlock: it is in default at the least payments that clear alone, and sound at the greatest.",
  };
  const state = view.state[bank];
  return state === "sound" ? labels[state] : `${labels[state]} ${ADDS_UP}`;
};

/** How a bank stands, in a line. */
const leadWords = (desk, bank) => {
  const { view } = desk;
  const owes = owesOf(view, bank);
  if (view.state[bank] !== "sound") {
    return `It lacks ${desk.say(unpaidOf(view, bank))} of the ${desk.say(owes)} it owes.`;
  }
  const keeps = `keeps ${desk.say(view.equity[bank])}`;
  return owes ? `It pays all of ${desk.say(owes)} that it owes, and ${keeps}.` : `It owes nothing, and ${keeps}.`;
};

/** How it stands at the greatest payments that clear, where default costs. */
const otherEnd = (desk, bank) => {
  const { view } = desk;
  const end = atGreatest(view);
  if (!end) return null;
  const isSame = AT_THE_ENDS.every((key) => end[key][bank] === view[key][bank]);
  const stands = end.state[bank] === "sound" ? "sound" : "in default";
  const words = isSame
    ? "it stands the same"
    : `it is ${stands}: it pays ${desk.say(paysOf(end, bank))}, ${desk.say(end.lost[bank])} is lost, `
      + `and it keeps ${desk.say(end.equity[bank])}`;
  const sentence = `This is at the least payments that clear. At the greatest ${words}.`;
  return make("p", { id: "other-end", class: "note" }, sentence);
};

/** All that is shown of a bank; what was open stays open, so that what had the focus in it can have it again. */
const partsOf = (desk, bank, { account, owes, owed }, other) => {
  const { view, units, full } = desk;
  const open = new Set(OPENS.filter((id) => /** @type {HTMLDetailsElement} */ (by(id))?.open));
  const isOpen = (id) => open.has(id);
  return [
    make("h2", { id: "bank-name", tabindex: -1, "data-bank": bank },
      mark(view.state[bank]),
      make("span", {}, full[bank], units.markElement(bank)),
    ),
    make("p", { id: "bank-lead", class: "lead" }, leadWords(desk, bank)),
    make("div", { class: "scroll" }, accountTable(desk, bank, account, other)),
    units.decides(bank)
      ? make("p", { id: "bank-decided", class: "note" }, `${MARK} One unit decides what is said of it.`)
      : null,
    make("p", { id: "bank-state", class: "note" }, labelWords(desk, bank)),
    otherEnd(desk, bank),
    askPart(desk, bank),
    changePart(desk, bank, owes.map(debtOf), isOpen),
    make("details", { id: "owed-part", open: isOpen("owed-part") },
      make("summary", {}, "What banks owe it"),
      owedTable(desk, owed.map(debtOf)),
    ),
  ].filter(Boolean);
};

/** What the server has of a bank, and its account in the state held against; nothing where another was chosen. */
const asked = async (desk, bank) => {
  const { view, against } = desk;
  const [{ value, fault }, other] = await Promise.all([
    see(`bank/${view.id}/${bank}`),
    desk.isSame ? null : accountAgainst(desk, bank),
  ]);
  if (bank !== desk.bank || view !== desk.view || against !== desk.against) return null;
  if (fault) desk.trouble(fault);
  return fault ? null : { value, other };
};

/**
 * Shows the bank chosen; nothing where another was chosen meanwhile. What is typed meanwhile for a debt more stays.
 * @param {import("./desk.mjs").Desk} desk
 * @param {boolean} [takesFocus] whether its head has the focus then
 */
export const showBank = async (desk, takesFocus = false) => {
  const { bank, view } = desk;
  if (bank === null) return;
  const before = typedDebt();
  const found = await asked(desk, bank);
  if (!found) return;
  const after = typedDebt();
  const place = by("bank");
  const answers = place.dataset.of === `${bank}` ? answersShown() : [];
  keepingFocus(() => place.replaceChildren(...partsOf(desk, bank, found.value, found.other)));
  place.dataset.of = `${bank}`;
  retypeDebt(before, after);
  showAnswers(answers, view);
  if (!takesFocus) return;
  by("bank-name").focus({ preventScroll: true });
  by("bank-name").scrollIntoView({ block: "nearest" });
};
