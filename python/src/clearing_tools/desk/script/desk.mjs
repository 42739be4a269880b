// The desk: what is done in the page goes to the server as a change of the state at hand, and what comes back is shown
// against the state that it is held against. One bank is chosen in the picture, the account, the tables and the curve
// alike.
import { post, see } from "./ask.mjs";
import { showBank } from "./bank.mjs";
import { Breaking } from "./breaking.mjs";
import { showChanges } from "./changes.mjs";
import { Context } from "./context.mjs";
import { listenControls, showControls, stateOfLink } from "./controls.mjs";
import { askCurve, showCurve } from "./curve.mjs";
import { markDifferences, showAbsent, showDifferences } from "./differences.mjs";
import { by } from "./elements.mjs";
import { showFault } from "./fields.mjs";
import { showFigures, showNext } from "./figures.mjs";
import { listenFinder } from "./finder.mjs";
import { keepingFocus } from "./focus.mjs";
import { showSources } from "./handout.mjs";
import { showCase, showPaper, showTitle, showUnit } from "./heads.mjs";
import { JournalPart } from "./journal.mjs";
import { listenKept, showKept } from "./kept.mjs";
import { listenKeys } from "./keys.mjs";
import { showKey } from "./legend.mjs";
import { Line } from "./line.mjs";
import { Money } from "./money.mjs";
import { fromCase } from "./othercase.mjs";
import { Pairs } from "./pairs.mjs";
import { showPicture } from "./picture.mjs";
import { cutWords, listenScenarios, showScenarios } from "./scenarios.mjs";
import { showSums } from "./sums.mjs";
import { Units } from "./units.mjs";
import { listenWidths } from "./widths.mjs";

/**
 * A change of a state, as the server is sent it: what is set, and all that this needs.
 * @typedef {{set: string, [more: string]: unknown}} Change
 */

/**
 * A change that is asked for: what it is, where its fault is shown, from which state it goes, and whether the state
 * that it leads to takes the place of the one at hand.
 * @typedef {Object} Sent
 * @property {Change} what
 * @property {string} [at] the field at which a fault is shown that names none
 * @property {string[]} [fields] the fields at which a fault can be shown
 * @property {number} [from]
 * @property {boolean} [instead]
 */

/** Goes on once a picture is on the screen, and measures how long that took from a change on. */
const onceShown = (began, next) => requestAnimationFrame(() => setTimeout(() => {
  performance.measure("change to picture", { start: began, end: performance.now() });
  next();
}));

/** What a bank is called in tables: its full name, with its name of the files behind it where that is another. */
const fullNames = ({ shown, labels, codes }) => shown.map((name, bank) => {
  const full = labels[bank] || name;
  return full === codes[bank] ? full : `${full} (${codes[bank]})`;
});

/** What the page knows, and all that can be done in it. */
export class Desk extends Context {
  units = new Units(this);
  breaking = new Breaking(this);
  journal = new JournalPart(this);

  /** Asks for the network, and shows its first state. */
  async begin() {
    const [network, base, kept] = await Promise.all([see("network"), see("state/0"), see("kept")]);
    const fault = network.fault ?? base.fault ?? kept.fault;
    if (fault) {
      this.trouble(fault);
      return;
    }
    this.take(network.value, base.value, kept.value);
    showCase(this);
    showScenarios(this);
    const wanted = stateOfLink() ?? this.network.atFirst;
    const linked = wanted ? await see(`state/${wanted}`) : base;
    const first = linked.value ?? this.base;
    this.line = new Line(first.line);
    this.listen();
    this.show(first);
    if (linked.fault) this.trouble(linked.fault);
    document.documentElement.dataset.ready = "yes";
  }

  /** Takes what the server has of the network. */
  take(network, base, kept) {
    this.network = network;
    this.full = fullNames(network);
    this.money = new Money(network.unit, network.currency, network.hasUnit);
    this.pairs = new Pairs(network);
    this.base = base;
    this.against = base;
    this.kept = kept;
  }

  /** Listens to all that can be done in the page. */
  listen() {
    listenControls(this);
    listenFinder(this);
    listenKeys(this);
    listenKept(this);
    listenScenarios(this);
    listenWidths(this);
    by("more").addEventListener("click", () => {
      this.isWhole = true;
      showDifferences(this);
    });
    by("ask-curve").addEventListener("click", () => askCurve(this));
    by("play-journal").addEventListener("click", () => this.journal.play());
  }

  /**
   * Tells a fault that no field has a place for.
   * @param {import("./ask.mjs").Fault} fault
   */
  trouble(fault) {
    by("trouble").textContent = fault.said;
    by("trouble").hidden = false;
  }

  /**
   * Shows a state: the picture first, and the rest once that is on the screen; nothing of the rest where another state
   * came meanwhile.
   * @param {import("./compare.mjs").State} view
   * @param {number} [began] when the change began, in milliseconds; without it the rest is shown at once
   */
  show(view, began) {
    const before = this.view;
    this.view = view;
    if (view.id === this.against.id && !this.against.case) this.against = view;
    by("trouble").hidden = true;
    by("set-cut").textContent = cutWords(before, view);
    keepingFocus(() => {
      this.journal.leave();
      this.showFirst();
    });
    const rest = () => {
      if (this.view !== view) return;
      keepingFocus(() => {
        this.showRest();
        showControls(this);
      });
      showBank(this);
      showCurve(this);
    };
    if (began === undefined) {
      rest();
    } else {
      onceShown(began, rest);
    }
  }

  /** Shows the title and the picture. */
  showFirst() {
    this.scale = this.money.scale(Math.max(1, ...this.view.owed, ...this.against.owed));
    showTitle(this);
    this.drawPicture();
  }

  /** Shows all that stands around the picture. */
  showRest() {
    showKept(this);
    showFigures(this);
    showDifferences(this);
    showAbsent(this);
    this.units.show();
    showPaper(this);
    showSums(this);
    showChanges(this);
    showSources(this);
    this.units.ask();
  }

  /** Shows the state at hand once more, where names or marks of banks are others than before. */
  showAgain() {
    keepingFocus(() => {
      this.showFirst();
      this.showRest();
      showBank(this);
    });
  }

  /** Draws the picture, with what it is in and what its marks mean. */
  drawPicture() {
    showPicture(this);
    showUnit(this);
    showKey(this);
  }

  /** Draws all pictures anew. */
  redraw() {
    this.drawPicture();
    showCurve(this);
    showSources(this);
  }

  /** Shows what hangs on the curve: who falls next, and in which kinds the curve is handed out. */
  showNext() {
    showNext(this);
    showSources(this);
  }

  /**
   * Chooses a bank, in all places alike.
   * @param {number} bank
   */
  open(bank) {
    this.bank = bank;
    showPicture(this);
    showUnit(this);
    markDifferences(this);
    showCurve(this);
    return showBank(this, true);
  }

  /**
   * Asks for a change of the state at hand.
   * @param {Change} what
   * @param {string} [at] the field at which a fault is shown that names none
   * @param {string[]} [fields] the fields at which a fault can be shown
   */
  change(what, at, fields) {
    return this.send({ what, at, fields });
  }

  /**
   * Asks for a change. A fault is shown at its field, and the last good state stays.
   * @param {Sent} sent
   */
  async send({ what, at = what.set, fields = [at], from = this.view.id, instead = false }) {
    const began = performance.now();
    this.units.leave();
    const { value, fault } = await post("change", { from, ...what });
    for (const field of fields) showFault(field, null);
    if (fault) {
      const place = fields.includes(fault.field) ? fault.field : at;
      if (!showFault(place, fault)) this.trouble(fault);
      return;
    }
    this.line.go(value.id, instead);
    this.show(value, began);
  }

  /**
   * Goes to a state, as a step that can be undone.
   * @param {number} state
   */
  go(state) {
    this.line.go(state);
    return this.seeState(state);
  }

  /** Steps back. */
  undo() {
    if (this.line.before !== undefined) this.seeState(this.line.undo());
  }

  /** Steps on again. */
  redo() {
    if (this.line.after !== undefined) this.seeState(this.line.redo());
  }

  /**
   * Asks for a state, and shows it where it is still the one at hand when the answer comes.
   * @param {number} state
   */
  async seeState(state) {
    const { value, fault } = await see(`state/${state}`);
    if (fault) {
      this.trouble(fault);
    } else if (state === this.line.now) {
      this.show(value);
    }
  }

  /**
   * Holds the state at hand against another.
   * @param {string} key such as state-3, a kept state, or case-1, another case
   */
  async holdAgainst(key) {
    const [kind, place] = key.split("-");
    const isCase = kind === "case";
    this.askedKey = key;
    const { value, fault } = await see(`${isCase ? "other" : "state"}/${place}`);
    if (fault) {
      this.trouble(fault);
      return;
    }
    // Another was asked for meanwhile.
    if (this.askedKey !== key) return;
    this.againstKey = key;
    this.against = isCase ? fromCase(value, Number(place), this.network, this.pairs) : value;
    keepingFocus(() => {
      this.showFirst();
      this.showRest();
    });
    await showBank(this);
  }
}

new Desk().begin();
