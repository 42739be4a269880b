// What can be changed of a bank: its cash, what it owes outside, its rule, and its debts.
import { owesTable } from "./bankdebts.mjs";
import { fieldBy, make } from "./elements.mjs";
import { faultPlace, textField, typedIn } from "./fields.mjs";

/** The fields of a debt more. */
const DEBT_MORE = ["creditor", "class", "claim"];

/** The fields of a bank, each of which sends its change when it is left or Enter is typed in it. */
const fieldsOf = (desk, view, bank) => {
  const send = (field) => (event) => desk.change(
    { set: "bank", bank, field, value: event.target.value },
    field,
  );
  const amount = (id, words, value) => textField(id, `${words}${desk.inUnits}`, value, {
    inputmode: "numeric",
    change: send(id),
  });
  const rules = desk.network.rules.map((rule) => make(
    "option",
    { value: rule, selected: rule === view.rule[bank] },
    rule,
  ));
  return make("div", {},
    make("div", { class: "fields" },
      amount("cash", "Cash", view.cash[bank]),
      amount("outside", "Owed outside", view.outside[bank]),
      make("label", {},
        make("span", {}, "Rule"),
        make("select", { id: "rule", "aria-describedby": "rule-fault", change: send("rule") }, ...rules),
      ),
    ),
    ...["cash", "outside", "rule"].map(faultPlace),
  );
};

/** Asks for the debt more that is typed. */
const addDebt = (desk, bank) => {
  const [creditor, rank, claim] = DEBT_MORE.map((id) => fieldBy(id).value);
  const debtor = desk.network.names[bank];
  return desk.change({ set: "add", debtor, creditor, class: rank, claim }, "claim", DEBT_MORE);
};

/** The form for a debt more, of this bank to another. */
const adding = (desk, bank, open) => {
  const keydown = (event) => {
    if (event.key !== "Enter") return;
    event.preventDefault();
    addDebt(desk, bank);
  };
  return make("details", { id: "add-debt", open },
    make("summary", {}, "Add a debt to a bank"),
    make("div", { class: "fields" },
      textField("creditor", "To", "", { list: "names", keydown }),
      textField("class", "Class", "1", { keydown }),
      textField("claim", `Claim${desk.inUnits}`, "", { keydown }),
      make("button", { type: "button", id: "add", click: () => addDebt(desk, bank) }, "Add"),
    ),
    ...DEBT_MORE.map(faultPlace),
  );
};

/**
 * What is typed for a debt more, so that it stays while the part of the bank is made anew.
 * @returns {(string | undefined)[]}
 */
export const typedDebt = () => DEBT_MORE.map(typedIn);

/**
 * Puts what was typed for a debt more into its fields, where it was typed meanwhile.
 * @param {(string | undefined)[]} before what stood there when the part was asked for
 * @param {(string | undefined)[]} after what stood there last
 */
export const retypeDebt = (before, after) => DEBT_MORE.forEach((id, at) => {
  if (after[at] !== before[at] && after[at] !== undefined) fieldBy(id).value = after[at];
});

/**
 * What can be changed of a bank.
 * @param {import("./desk.mjs").Desk} desk
 * @param {number} bank
 * @param {import("./bankdebts.mjs").Debt[]} owes its debts
 * @param {(id: string) => boolean} isOpen whether a part that opens was open
 * @returns {HTMLElement}
 */
export const changePart = (desk, bank, owes, isOpen) => make(
  "details",
  { id: "change-bank", open: isOpen("change-bank") },
  make("summary", {}, `Change ${desk.short(bank)} and what it owes`),
  fieldsOf(desk, desk.view, bank),
  owesTable(desk, owes),
  adding(desk, bank, isOpen("add-debt")),
);
