// What the page knows: the network, the state at hand and the one that it is held against, and what is chosen.
import { Line } from "./line.mjs";
import { cut } from "./sentences.mjs";
import { apart, number } from "./texts.mjs";

/**
 * Another case, which states can be held against: a part of what a network has.
 * @typedef {Object} OtherCase
 * @property {string} title
 * @property {string} asOf
 * @property {string[]} names
 * @property {string[]} shown
 * @property {number[]} debtors
 * @property {number[]} creditors
 * @property {number[]} claims
 */

/**
 * A scenario of the file, or one that was built here: its cut per mille, and the banks and amounts of its losses.
 * @typedef {{name: string, cut: number, losses: [number, number][], isBuilt: boolean}} Scenario
 */

/**
 * What stays as it is while the desk is there. Lists are over the banks, or over the debts, in file order.
 * @typedef {Object} Network
 * @property {string[]} names what the banks are called in the files
 * @property {string[]} codes the same, with signs that are not seen as codes
 * @property {string[]} shown what they are called in pictures and sentences
 * @property {string[]} labels their full names, empty where there is none
 * @property {string[]} groups their groups, empty where there is none
 * @property {number[]} debtors
 * @property {number[]} creditors
 * @property {number[]} claims units of account
 * @property {Scenario[]} scenarios
 * @property {string[]} rules
 * @property {string} program
 * @property {string} title
 * @property {string} asOf
 * @property {string} test liquidity or solvency, or empty
 * @property {string} unit what a unit of account is worth, an exact decimal
 * @property {string} currency
 * @property {boolean} hasUnit whether the case says what a unit is worth
 * @property {string[]} notes
 * @property {OtherCase[]} others
 * @property {number} atFirst the state that is shown first
 */

/** What the page knows. Banks are told by their places in the file. */
export class Context {
  /** @type {Network} */
  network = null;
  /** What the banks are called in tables and in the heads of accounts. @type {string[]} */
  full = [];
  /** The pairs of banks with debts between them. @type {import("./pairs.mjs").Pairs} */
  pairs = null;
  /** How amounts are said in the currency of the case. @type {import("./money.mjs").Money} */
  money = null;
  /** The state of the files, without any change. @type {import("./compare.mjs").State} */
  base = null;
  /** The state at hand. @type {import("./compare.mjs").State} */
  view = null;
  /** The state, or the other case, that it is held against. @type {import("./othercase.mjs").Held} */
  against = null;
  againstKey = "state-0"; // which one that is, as the list names it
  askedKey = "state-0"; // which one was asked for last
  line = new Line([]); // the states one after another, for undo and redo
  /** The states that have a name. @type {{name: string, state: number, note: string}[]} */
  kept = [];
  /** The bank that is chosen. @type {number | null} */
  bank = null;
  order = { key: "unpaidMore", isTurned: false }; // of the table of what differs
  isWhole = false; // whether that table has all banks
  isListWhole = false; // whether the list on a small screen has all banks
  wide = 0; // of the picture, in pixels
  curveWide = 0; // of the curve, in pixels
  /** What the picture shows. @type {import("./matter.mjs").Matter} */
  matter = null;
  /** The picture that is shown. @type {import("./picture.mjs").Picture} */
  picture = null;
  /** The scale in which the picture's amounts are said. @type {import("./money.mjs").Scale} */
  scale = null;
  /** Where the matrix is opened, step by step. @type {import("./blocks.mjs").Step[]} */
  zoom = [];

  /** Whether the state at hand is held against itself. */
  get isSame() {
    return !this.against.case && this.against.id === this.view.id;
  }

  /** What the state at hand is called, in a sentence. */
  get nowName() {
    return cut(this.nameOf(this.view));
  }

  /** What the state that it is held against is called, in a sentence. */
  get againstName() {
    if (!this.against.case) return cut(this.nameOf(this.against));
    const other = this.network.others[this.against.case - 1];
    return cut(other.asOf && other.title === this.network.title ? other.asOf : other.title);
  }

  /** What is said behind the name of a field: that it is of units of account. */
  get inUnits() {
    return this.network.hasUnit ? `, in units of ${this.money.with(this.money.exact(1))}` : "";
  }

  /**
   * A bank in a table.
   * @param {number} bank
   * @returns {string}
   */
  name(bank) {
    return apart(this.full[bank]);
  }

  /**
   * A bank in a sentence, cut where its name is long.
   * @param {number} bank
   * @returns {string}
   */
  short(bank) {
    return cut(this.network.shown[bank]);
  }

  /**
   * An amount in a sentence.
   * @param {number} units
   * @returns {string}
   */
  say(units) {
    return this.money.say(units);
  }

  /**
   * An amount of what was changed, to the last unit.
   * @param {number} units
   * @returns {string}
   */
  exactly(units) {
    return this.network.hasUnit ? this.money.with(this.money.exact(units)) : number(units);
  }

  /**
   * The kept state that a state is, with its name; nothing of one that is not kept.
   * @param {{id: number}} view
   */
  keptAs(view) {
    return this.kept.find(({ state }) => state === view.id);
  }

  /**
   * The name under which a state is kept, or words for one that is not.
   * @param {import("./compare.mjs").State} view
   * @returns {string}
   */
  nameOf(view) {
    return this.keptAs(view)?.name ?? this.wordsOf(view);
  }

  /**
   * Words for a state by what was changed.
   * @param {import("./compare.mjs").State} view
   * @returns {string}
   */
  wordsOf(view) {
    const scenario = this.network.scenarios[view.scenario - 1];
    const parts = [];
    if (scenario) parts.push(scenario.name);
    if (view.cut && view.cut !== scenario?.cut) parts.push(`Cut ${number(view.cut)}`);
    if (view.keep !== this.base.keep) parts.push(`Keeps ${number(view.keep)}`);
    return parts.join(", ") || "This state";
  }
}
