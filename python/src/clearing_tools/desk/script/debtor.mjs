// What a debtor lacks in turn: a few sentences, and its own debtors, each of which opens too.
import { see } from "./ask.mjs";
import { debtOf } from "./bankdebts.mjs";
import { make } from "./elements.mjs";
import { opener } from "./opener.mjs";
import { listed } from "./sentences.mjs";

const FURTHER = 5; // debtors of a debtor that open
const MOST_NAMES = 3;

const sumOf = (list, key) => list.reduce((sum, one) => sum + one[key], 0);

/** The debtors of an account with what each leaves unpaid, in units. */
const unpaidOf = ({ unpaid }) => unpaid.map(([debtor, claim, paid]) => ({ debtor, units: claim - paid }));

/** What of all a debtor could have is gone, in words. */
const lessWords = (desk, account) => {
  const { loss, outside, lost } = account;
  const number = (units) => desk.money.whole.number(units);
  const unpaid = unpaidOf(account);
  const names = unpaid.map(({ debtor }) => desk.short(debtor));
  return [
    loss ? `less ${number(loss)} of its cash` : "",
    unpaid.length ? `less ${number(sumOf(unpaid, "units"))} unpaid by ${listed(names, MOST_NAMES)}` : "",
    outside ? `less ${number(outside)} owed outside` : "",
    lost ? `less ${number(lost)} of costs of default` : "",
  ].filter(Boolean).join(", ");
};

/** What a debtor pays a creditor, in words; nothing where it owes it nothing. */
const paysWords = (desk, creditor, debts) => {
  const number = (units) => desk.money.whole.number(units);
  const owed = debts.filter(({ other }) => other === creditor);
  const [claim, paid] = [sumOf(owed, "claim"), sumOf(owed, "paid")];
  if (!claim) return "";
  const first = Math.min(...debts.map(({ rank }) => rank));
  const isLater = !paid && first < Math.min(...owed.map(({ rank }) => rank));
  const later = isLater ? `; its debts of class ${first} come first` : "";
  return ` It pays ${desk.short(creditor)} ${paid ? number(paid) : "nothing"} of ${number(claim)}${later}.`;
};

/** How a debtor stands, in a few sentences. */
const sentences = (desk, creditor, debtor, { account, owes }) => {
  const number = (units) => desk.money.whole.number(units);
  const less = lessWords(desk, account);
  const left = account.left < 0 ? `lacks ${number(-account.left)}` : `keeps ${number(account.left)}`;
  return (
    `${number(account.whole)} with all${less ? `; ${less}` : ""}: ${desk.short(debtor)} ${left}.`
    + paysWords(desk, creditor, owes.map(debtOf))
  );
};

/** A debtor of a debtor, which opens. */
const furtherPart = (desk, creditor, { debtor, units }, path) => {
  const inner = make("div");
  const words = [`unpaid by ${desk.short(debtor)}: `, make("b", {}, desk.money.whole.number(units))];
  const open = async (isOpen) => {
    inner.hidden = !isOpen;
    if (isOpen && !inner.hasChildNodes()) inner.append(await debtorPart(desk, creditor, debtor, path));
  };
  return make("li", {}, opener(words, open, { "data-bank": debtor }), inner);
};

/**
 * What a debtor lacks in turn.
 * @param {import("./desk.mjs").Desk} desk
 * @param {number} creditor to whom it leaves something unpaid
 * @param {number} debtor
 * @param {number[]} path the banks through which it was opened, which do not open again
 * @returns {Promise<HTMLElement>}
 */
export const debtorPart = async (desk, creditor, debtor, path) => {
  const { value, fault } = await see(`bank/${desk.view.id}/${debtor}`);
  if (fault) return make("p", { class: "fault" }, fault.said);
  const further = unpaidOf(value.account)
    .filter(({ debtor: other }) => !path.includes(other) && other !== debtor)
    .slice(0, FURTHER);
  const parts = further.map((one) => furtherPart(desk, debtor, one, [...path, debtor]));
  return make("div", { class: "part" },
    make("p", {}, sentences(desk, creditor, debtor, value)),
    parts.length ? make("ul", { class: "further" }, ...parts) : null,
    make(
      "button",
      { type: "button", class: "link", click: () => desk.open(debtor) },
      `The account of ${desk.short(debtor)}`,
    ),
  );
};
