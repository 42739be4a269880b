// The modules of the pages that need no page, by node's own runner: node --test tests/script/desk.test.mjs
import assert from "node:assert/strict";
import fs from "node:fs";
import os from "node:os";
import path from "node:path";
import test from "node:test";
import { fileURLToPath, pathToFileURL } from "node:url";

// The desk's modules beside those that it has from the report, in one folder as they are served.
const here = path.dirname(fileURLToPath(import.meta.url));
const packages = process.env.PACKAGES ?? path.join(here, "../../python/src");
const folder = fs.mkdtempSync(path.join(os.tmpdir(), "desk-"));
for (const part of ["drawing/web/script", "desk/script"]) {
  fs.cpSync(path.join(packages, "clearing_tools", part), folder, { recursive: true });
}
process.on("exit", () => fs.rmSync(folder, { recursive: true }));
const load = (name) => import(pathToFileURL(path.join(folder, `${name}.mjs`)).href);
const { apart, many, minus, number, signed } = await load("texts");
const { cut, ended, listed, word } = await load("sentences");
const { Money } = await load("money");
const { accountAgainst, linesOf } = await load("account");
const compare = await load("compare");
const { atGreatest, differs, fallen, rows, saved, soundAtGreatest, sorted, sums } = compare;
const { aligned } = await load("othercase");
const { changedBanks } = await load("changed");
const { told } = await load("title");
const { Pairs, flowsOf } = await load("pairs");
const { Line } = await load("line");
const { matches } = await load("find");
const { newest } = await load("newest");
const { blocksOf, calledIn } = await load("blocks");
const { Amounts } = await load("amounts");
const { Ledger } = await load("ledger");
const { wordsOf } = await load("steps");

/** A state of banks, each with its state, cash, owed, paid and equity. */
const view = (...banks) => {
  const column = (place) => banks.map((bank) => bank[place]);
  return {
    state: column(0),
    cash: column(1),
    left: column(1),
    owed: column(2),
    paid: column(3),
    equity: column(4),
    rule: banks.map(() => "order"),
    outside: banks.map((bank) => bank[5] ?? 0),
    outsidePaid: banks.map((bank) => bank[6] ?? 0),
    lost: banks.map((bank) => bank[7] ?? 0),
  };
};
const BASE = view(
  ["sound", 10, 5, 5, 5],
  ["contagion", 1, 9, 4, 0],
  ["sound", 3, 0, 0, 7],
  ["fundamental", 2, 8, 2, 0],
);
const NOW = view(
  ["fundamental", 1, 5, 1, 0],
  ["sound", 9, 9, 9, 1],
  ["sound", 3, 0, 0, 3],
  ["fundamental", 2, 8, 2, 0],
);
const NAMES = ["A", "B", "C", "D"];

test("amounts are written to the last digit", () => {
  assert.equal(number(1_000_000_000_000_001), "1,000,000,000,000,001");
  assert.equal(number(0), "0");
  assert.equal(minus(-1234), "−1,234");
  assert.equal(minus(-0), "0");
  assert.equal(many(1, "bank"), "1 bank");
  assert.equal(many(2000, "bank"), "2,000 banks");
});

test("a difference has its sign", () => {
  assert.deepEqual([5, -1234567, 0].map(signed), ["+5", "−1,234,567", "0"]);
});

test("amounts are exact in the currency of a case", () => {
  const plain = (text) => text.replaceAll("\u00a0", " ");
  const thousand = new Money("1000", "EUR", true);
  const cents = new Money("0.01", "EUR", true);
  const units = new Money();
  const third = new Money("20000", "EUR", true);
  assert.deepEqual([6_078_334, 10_000, 1, 0, -150_000].map((amount) => plain(thousand.say(amount))), [
    "EUR 6.08 billion", "EUR 10 million", "EUR 1,000", "EUR 0", "EUR −150 million",
  ]);
  // Of two whole numbers that are as near it is the even one, as in the report.
  const halves = new Money("500", "EUR", true);
  const { number: inThousands } = halves.scale(1_900_000);
  assert.deepEqual([14_881, 14_883, -14_881, -14_883].map(inThousands), ["7,440", "7,442", "−7,440", "−7,442"]);
  assert.deepEqual([45_000, 35_000].map((amount) => plain(halves.say(amount))), ["EUR 22 million", "EUR 18 million"]);
  assert.deepEqual(
    [thousand.whole.words, thousand.whole.number(1_831_667), thousand.whole.number(-10_000)],
    ["EUR thousand", "1,831,667", "−10,000"],
  );
  assert.deepEqual([9_007_199_254_740_991, 5, -105].map((amount) => cents.exact(amount)), [
    "90,071,992,547,409.91",
    "0.05",
    "−1.05",
  ]);
  assert.equal(cents.whole.number(123_456), "1,234.56");
  assert.equal(third.exact(3), "60,000");
  // An account is to the last unit, in the largest scale in which that is short.
  const accounts = [
    ["100000", -11_761, "EUR million", "−1,176.1"],
    ["20000", 3, "EUR million", "0.06"],
    ["200000", 5, "EUR million", "1.0"],
    ["1000000", 7, "EUR million", "7"],
    ["1", 1234, "EUR", "1,234"],
    ["10", -5, "EUR thousand", "−0.05"],
    ["2.5", 3, "EUR", "7.5"],
    ["1000000000", 2, "EUR billion", "2"],
  ];
  for (const [unit, units_, words, text] of accounts) {
    const { whole } = new Money(unit, "EUR", true);
    assert.deepEqual([whole.words, whole.number(units_)], [words, text], unit);
  }
  assert.deepEqual([units.whole.words, units.whole.number(-1234)], ["units", "−1,234"]);
  assert.deepEqual([units.say(1), units.say(1234)].map(plain), ["1 unit", "1,234 units"]);
  const table = thousand.scale(7_572_000);
  assert.deepEqual(
    [
      table.words,
      table.number(113_333),
      table.number(-890_000),
      table.number(400),
      table.number(-1),
      table.number(0),
    ],
    ["EUR million", "113", "−890", "<1", "−<1", "0"],
  );
  assert.deepEqual(
    [thousand.figures(7_572_000).words, thousand.figures(7_572_000).number(1_256_002)].map(plain),
    ["EUR bn", "1.26"],
  );
  // What is not 0 is not shown as 0, be it half of what is shown, or below 0.
  assert.deepEqual(
    [499, 500, 501, -499, -500, -501].map(thousand.scale(1e6).number),
    ["<1", "<1", "1", "−<1", "−<1", "−1"],
  );
  assert.deepEqual(
    [4000, 5000, 5001, 0, -4000, -5000, -5001, -1e6].map(thousand.figures(9e6).number),
    ["<0.01", "<0.01", "0.01", "0.00", "−<0.01", "−<0.01", "−0.01", "−1.00"],
  );
});

test("a long name is cut after a whole word of four letters or more", () => {
  assert.equal(cut("Alster"), "Alster");
  assert.equal(cut("Société Générale de Crédit Industriel et Commercial"), "Société Générale de Crédit…");
  assert.equal(cut("Landesbank für Handel und Gewerbe"), "Landesbank für Handel…");
  assert.equal(cut("W".repeat(40)), `${"W".repeat(27)}…`);
});

test("counts are words as far as twelve", () => {
  assert.deepEqual([0, 3, 12, 13].map(word), ["no", "three", "twelve", "13"]);
});

test("names stand in a sentence", () => {
  assert.equal(listed(["A"]), "A");
  assert.equal(listed(["A", "B", "C"]), "A, B and C");
  assert.equal(listed(["A", "B", "C", "D"], 2), "A, B and 2 more");
  assert.deepEqual(["It is A", "It is B S.A."].map(ended), ["It is A.", "It is B S.A."]);
  assert.equal(apart("x"), "\u2068x\u2069");
});

test("who falls and who is saved", () => {
  assert.deepEqual(fallen(BASE, NOW), [0]);
  assert.deepEqual(saved(BASE, NOW), [1]);
  assert.deepEqual(fallen(BASE, BASE), []);
});

test("where default costs there are both ends", () => {
  const top = view(
    ["sound", 10, 5, 5, 6],
    ["sound", 1, 9, 9, 1],
    ["sound", 3, 0, 0, 7],
    ["fundamental", 2, 8, 3, 0],
  );
  const costly = {
    ...BASE,
    lost: [0, 3, 0, 1],
    greatest: {
      state: top.state,
      paid: top.paid,
      outsidePaid: top.outsidePaid,
      equity: top.equity,
      lost: top.lost,
    },
  };
  assert.equal(atGreatest(BASE), null);
  assert.deepEqual(soundAtGreatest(BASE), []);
  assert.deepEqual(soundAtGreatest(costly), [1]);
  assert.deepEqual([sums(costly).defaults, sums(costly).lost, sums(costly).pays], [2, 4, 11]);
  assert.deepEqual(
    [sums(atGreatest(costly)).defaults, sums(atGreatest(costly)).lost, sums(atGreatest(costly)).pays],
    [1, 0, 17],
  );
});

test("a row says what is unpaid and kept, before and now", () => {
  const found = rows(BASE, NOW);
  assert.deepEqual(found.map((row) => [row.unpaidBefore, row.unpaid, row.unpaidMore, row.keepsMore]), [
    [0, 4, 4, -5],
    [5, 0, -5, 1],
    [0, 0, 0, -4],
    [6, 6, 0, 0],
  ]);
  assert.deepEqual(found.filter(differs).map((row) => row.bank), [0, 1, 2]);
  assert.equal(rows(BASE, BASE).some(differs), false);
  assert.deepEqual(sorted(found, "unpaidMore").map((row) => row.bank), [0, 3, 2, 1]);
  assert.deepEqual(sorted(found, "unpaidMore", true).map((row) => row.bank), [1, 3, 2, 0]);
  assert.deepEqual(sorted(found, "state").map((row) => row.bank), [0, 3, 1, 2]);
});

test("the debts of two states are held against one another pair by pair", () => {
  const network = { names: NAMES, debtors: [0, 0, 1], creditors: [1, 1, 2], claims: [5, 4, 9] };
  const pairs = new Pairs(network);
  const listed_ = ({ claims, paid, counts }) => [...claims].map((claim, at) => [claim, paid[at], counts[at]]);
  const before = pairs.sums({ flows: [5, 4, 9], keys: null, changedDebts: [] });
  const now = pairs.sums({
    flows: [1, 2, 3],
    keys: [0, 2, 3],
    changedDebts: [[1, 0, 1, 1, 4, null], [3, 2, 3, 1, null, 3], [2, 1, 2, 1, 9, 8]],
  });
  assert.deepEqual(listed_(before), [[9, 9, 2], [9, 9, 1]]);
  assert.deepEqual(listed_(now), [[5, 1, 1], [8, 2, 1], [3, 3, 1]]);
  const flows = flowsOf(pairs, before, now, false).map((flow) => [
    flow.debtor,
    flow.creditor,
    flow.unpaid,
    flow.more,
  ]);
  assert.deepEqual(flows, [[0, 1, 4, 4], [1, 2, 6, 6], [2, 3, 0, 0]]);
  assert.deepEqual(
    flowsOf(pairs, now, before, false).map((flow) => [flow.debtor, flow.creditor, flow.more]),
    [[0, 1, -4], [1, 2, -6], [2, 3, 0]],
  );
  assert.deepEqual(flowsOf(pairs, before, now, true).map((flow) => flow.more), [4, 6, 0]);
  // Where nothing of the debts is changed all has the claims of the files, and each state sums of its own.
  const cut_ = pairs.sums({ flows: [0, 4, 2], keys: null, changedDebts: [] });
  assert.deepEqual([listed_(cut_), listed_(before)], [[[9, 4, 2], [9, 2, 1]], [[9, 9, 2], [9, 9, 1]]]);
  // A claim that is struck is there no more, and its pair has no debt where it was the only one.
  const struck = pairs.sums({ flows: [5, 4], keys: [0, 1], changedDebts: [[2, 1, 2, 1, 9, null]] });
  assert.deepEqual(flowsOf(pairs, before, struck, true).map((flow) => [flow.debtor, flow.creditor]), [
    [0, 1],
  ]);
  assert.deepEqual(flowsOf(pairs, before, struck, false).map((flow) => [flow.claim, flow.more]), [
    [9, 0],
    [0, 0],
  ]);
});

test("a state of another case stands over the banks of this one", () => {
  const other = { ...BASE, estate: [1, 2, 3, 4] };
  const found = aligned(other, ["D", "X", "A"], NAMES);
  assert.deepEqual(
    [found.state, found.left, found.owed],
    [["fundamental", "absent", "sound"], [2, 0, 10], [8, 0, 5]],
  );
});

test("the account of another case has a line for each debtor that is here, the first bank too", async () => {
  const asked = [];
  const unpaid = [[2, 7, 0], [0, 5, 1], [1, 3, 0], [3, 1, 0]];
  const there = { whole: 10, loss: 1, unpaid, outside: 2, lost: 0, left: -8 };
  const { fetch } = globalThis;
  globalThis.fetch = async (address) => {
    asked.push(address);
    const headers = { "Content-Type": "application/json" };
    return new Response(JSON.stringify({ account: there }), { headers });
  };
  try {
    // The first bank is the first here too, two others are not here, and one has another place.
    const bankOf = (bank) => [0, undefined, 4, undefined][bank];
    const before = await accountAgainst({ against: { case: 1, placeOf: () => 0, bankOf } }, 0);
    const lines = linesOf({ whole: 0, loss: 0, unpaid: [], outside: 0, lost: 0, left: 0 }, before);
    assert.deepEqual(asked, ["other/1/0"]);
    assert.deepEqual(
      lines.slice(2, -1).map(({ words, debtor, was }) => [words, debtor, was]),
      [["unpaid by ", 4, -7], ["unpaid by banks of that case alone", undefined, -4], ["unpaid by ", 0, -4]],
    );
    assert.equal(lines.reduce((sum, { was }) => sum + was, 0), there.left);
  } finally {
    globalThis.fetch = fetch;
  }
});

test("what is paid outside is paid, and what is owed there is owed", () => {
  const one = view(["fundamental", 5, 3, 1, 0, 6, 4, 2]);
  assert.deepEqual(sums(one), { defaults: 1, cash: 5, owes: 9, pays: 5, unpaid: 4, keeps: 0, lost: 2 });
});

test("the sums add up", () => {
  assert.deepEqual(sums(BASE), { defaults: 2, cash: 16, owes: 22, pays: 11, unpaid: 11, keeps: 12, lost: 0 });
});

test("the title says who joins those in default, and what more is unpaid", () => {
  const say = (units) => `${units}`;
  const name = (bank) => NAMES[bank];
  const title = (before, now, isSame = false) => told(before, now, isSame, { name, say });
  assert.equal(title(BASE, NOW), "A joins those in default; B is in default no more; 1 less stays unpaid");
  assert.equal(title(BASE, BASE, true), "Two of four banks are in default; 11 stays unpaid");
  const units = (count) => `${count} ${count === 1 ? "unit" : "units"}`;
  const inUnits = (before, now, isSame) => told(before, now, isSame, { name, say: units });
  assert.equal(
    inUnits(BASE, NOW, false),
    "A joins those in default; B is in default no more; 1 unit less stays unpaid",
  );
  assert.equal(inUnits(BASE, BASE, true), "Two of four banks are in default; 11 units stay unpaid");
  assert.equal(title(BASE, BASE), "Nothing differs");
  const three = view(
    ["contagion", 0, 5, 1, 0],
    ["contagion", 1, 9, 4, 0],
    ["contagion", 3, 4, 0, 7],
    ["fundamental", 2, 8, 2, 0],
  );
  assert.equal(title(BASE, three), "A and C join those in default; 8 more stays unpaid");
  assert.equal(inUnits(BASE, three, false), "A and C join those in default; 8 units more stay unpaid");
  const less = view(
    ["sound", 10, 5, 5, 4],
    ["contagion", 1, 9, 4, 0],
    ["sound", 3, 0, 0, 7],
    ["fundamental", 2, 8, 2, 0],
  );
  assert.equal(title(BASE, less), "The same banks are in default; as much stays unpaid");
});

test("what was changed of the banks", () => {
  assert.deepEqual(changedBanks(BASE, NOW), [
    { bank: 0, field: "cash", before: 10, now: 1 },
    { bank: 1, field: "cash", before: 1, now: 9 },
  ]);
});

test("undo and redo go along the line", () => {
  const line = new Line([0]);
  assert.equal(line.before, undefined);
  line.go(1);
  line.go(2);
  assert.equal(line.undo(), 1);
  assert.equal(line.after, 2);
  assert.equal(line.undo(), 0);
  assert.equal(line.undo(), 0);
  assert.equal(line.redo(), 1);
  line.go(7);
  assert.equal(line.after, undefined);
  assert.deepEqual(line.states, [0, 1, 7]);
  line.go(7);
  assert.deepEqual(line.states, [0, 1, 7]);
});

test("while a slider moves one state takes the place of another", () => {
  const line = new Line([0]);
  line.go(1);
  line.go(2, true);
  line.go(3, true);
  assert.deepEqual([line.states, line.now], [[0, 3], 3]);
  line.go(0, true);
  assert.deepEqual([line.states, line.now], [[0], 0]);
});

test("only the newest value is asked for", async () => {
  const asked = [];
  const waiting = [];
  const ask = newest((value) => {
    asked.push(value);
    return new Promise((done) => waiting.push(done));
  });
  const pass = () => new Promise((done) => setTimeout(done));
  assert.equal(ask(1), true);
  for (const value of [2, 3, 4]) assert.equal(ask(value), false);
  assert.deepEqual(asked, [1]);
  waiting.shift()();
  await pass();
  assert.deepEqual(asked, [1, 4]);
  waiting.shift()();
  await pass();
  ask(5);
  assert.deepEqual(asked, [1, 4, 5]);
});

test("banks are found by name or label, the nearest first", () => {
  const names = ["Kemi", "Alkem", "kem", "Ost"];
  const labels = ["", "", "", "Bank of Kemijärvi"];
  assert.deepEqual(matches(names, labels, " KEM "), [2, 0, 1, 3]);
  assert.deepEqual(matches(names, labels, ""), []);
  assert.deepEqual(matches(["Crédit Loire", "B"], ["", "Cre\u0301dit B"], "credit"), [0, 1]);
  assert.deepEqual(matches(["Credit Loire"], [""], "CRÉDIT"), [0]);
  assert.deepEqual(matches(names, labels, "kem", 2), [2, 0]);
  const many = Array.from({ length: 1000 }, (_, at) => `bank ${at}`);
  assert.deepEqual(matches(many, many.map(() => ""), "bank 777"), [777]);
});

test("blocks are called by their groups, by their one bank, or by the ranks of their banks", () => {
  const groups = blocksOf([0, 1, 2], ["a", "b", "a"], [1, 2, 3]);
  assert.deepEqual(groups, [{ name: "a", banks: [0, 2] }, { name: "b", banks: [1] }]);
  assert.deepEqual(calledIn(groups, ["X", "Y", "Z"]).map(({ whole }) => whole), ["a", "Y"]);
  const banks = Array.from({ length: 41 }, (_, bank) => bank);
  const sizes = blocksOf(banks, banks.map(() => ""), banks);
  assert.deepEqual([sizes.length, sizes[0].banks, sizes.at(-1).banks], [20, [40, 39], [1, 0]]);
  const called = calledIn(sizes, banks.map(String));
  assert.deepEqual(called.slice(0, 3).map(({ whole }) => whole), ["1st to 2nd", "3rd to 4th", "5th to 6th"]);
  assert.deepEqual(called[5], { whole: "11th to 12th", short: "11–12" });
});

test("amounts of the report are to the last digit", () => {
  const thousands = new Amounts({ mantissa: "1000", places: 0, currency: "EUR", bare: false });
  const cents = new Amounts({ mantissa: "1", places: 2, currency: null, bare: false });
  const units = new Amounts({ mantissa: "1", places: 0, currency: null, bare: true });
  assert.deepEqual([thousands.money(5), thousands.worth(5)], ["EUR 5,000", 5000]);
  assert.deepEqual([cents.number(-105), cents.money(123_456_789)], ["−1.05", "1,234,567.89"]);
  assert.deepEqual([1, 2].map((count) => units.money(count)), ["1 unit", "2 units"]);
});

test("a step of a journal is applied and told", () => {
  const journal = {
    names: ["A", "B"],
    full: { 1: "Bank B" },
    cash: [5, 0],
    owed: [7, 0],
    outside: [2, 0],
    outsideFlow: [1, -1],
    debts: [0, 1, 1, 7],
    flowOf: [0],
    flows: [[0, 1, 7, 3], [0, -2, 2, 2]],
    frames: [[2, 2, 1, 1, 1, [0, 3]]],
  };
  const amounts = new Amounts({ mantissa: "1", places: 0, currency: null, bare: true });
  const ledger = new Ledger(journal);
  ledger.apply(journal.frames[0]);
  ledger.payOutside();
  assert.deepEqual([ledger.paid, ledger.given, ledger.receipts, ledger.paidOn], [[3], [3, 0], [0, 3], [3, 2]]);
  assert.deepEqual([ledger.has(0), ledger.has(1), ledger.total], [5, 3, 3]);
  const told = wordsOf({ journal, amounts, ledger, risen: [0, 3] }, 1);
  assert.equal(
    told.raise.replace(/[\u2068\u2069]/g, ""),
    "Raise 1 of 1, stamp 1: A has now paid Bank B 3 units of 7 units in class 1. "
      + "A then had 5 units, of which 2 units owed outside comes first. Nobody can pay more.",
  );
  assert.equal(told.line, "line 2: 1,A,B,1,3");
  const many_ = { ...journal, frames: [[2, 9, 1, 4, 8, [0, 3]], [10, 10, 5, 5, 1, [0, 4]]] };
  assert.equal(
    wordsOf({ journal: many_, amounts, ledger, risen: [0, 3, 4] }, 1).raise,
    "Step 1 of 2: 8 raises of stamps 1 to 4, lines 2 to 9 of the journal, by 3 units in all.",
  );
  assert.equal(wordsOf({ journal, amounts, ledger, risen: [0, 3] }, 0).raise, "Nothing is paid yet.");
  ledger.reset();
  assert.equal(ledger.total, 0);
});
