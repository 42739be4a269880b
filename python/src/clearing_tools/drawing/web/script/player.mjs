// The player of a journal: what stays unpaid after so many of its steps, drawn in the picture of the network. The
// report has it, and the desk.
import { by, fieldBy } from "./elements.mjs";
import { drawFlow } from "./flows.mjs";
import { Ledger, sumOf } from "./ledger.mjs";
import { Rise } from "./rise.mjs";
import { wordsOf } from "./steps.mjs";

const LONG = 24000; // milliseconds for all steps together, as far as a step has its time
const LEAST_STEP = 40, MOST_STEP = 900; // milliseconds for one step

/** What is paid in all from bank to bank after each number of steps, in units. */
const risenOf = (ledger, frames) => [0, ...frames.map((frame) => {
  ledger.apply(frame);
  return ledger.total;
})];

/** A flow of the picture: its elements, its title, and the words of that before what is paid. */
class PlayedFlow {
  constructor(group, journal, amounts) {
    this.group = group;
    this.place = Number(group.dataset.flow);
    this.amounts = amounts;
    const [, , claim, paid] = journal.flows[this.place];
    this.claim = claim;
    this.paid = paid; // as it is drawn
    this.title = group.querySelector("title");
    this.words = this.title.textContent.slice(0, -this.suffix(paid).length);
  }

  suffix(paid) {
    return `: ${this.amounts.number(paid)} of ${this.amounts.number(this.claim)} paid`;
  }

  /** Draws it where another amount is paid on it than was. */
  draw(paid, { mostUnpaid, widths }) {
    if (paid === this.paid) return;
    this.paid = paid;
    this.title.textContent = this.words + this.suffix(paid);
    drawFlow(this.group, this.claim - paid, mostUnpaid, widths);
  }
}

/** The player of a journal in a picture of a page, which has its buttons. */
export class Player {
  /**
   * @param {import("./ledger.mjs").Journal} journal one that has steps
   * @param {import("./amounts.mjs").Amounts} amounts
   * @param {SVGSVGElement} svg the picture
   * @param {any} d3 the library
   */
  constructor(journal, amounts, svg, d3) {
    this.journal = journal;
    this.amounts = amounts;
    this.svg = svg;
    this.d3 = d3;
    this.end = journal.frames.length;
    this.at = this.end; // how many steps are taken
    this.timer = null; // while it plays
    this.ledger = new Ledger(journal);
    this.risen = risenOf(this.ledger, journal.frames);
    this.flows = [...svg.querySelectorAll("g[data-flow]")].map((group) => new PlayedFlow(group, journal, amounts));
    this.rise = new Rise(d3, /** @type {any} */ (by("rise")), this);
  }

  /**
   * Listens to the buttons, shows the player, and goes to the end.
   * @param {AbortSignal} [signal] that ends the listening to the window
   */
  begin(signal) {
    const moves = {
      first: () => this.goTo(0),
      back: () => this.goTo(this.at - 1),
      next: () => this.goTo(this.at + 1),
      last: () => this.goTo(this.end),
    };
    for (const [key, move] of Object.entries(moves)) {
      by(key).addEventListener("click", () => this.leave(move));
    }
    const slider = fieldBy("step");
    slider.max = String(this.end);
    slider.addEventListener("input", () => this.leave(() => this.goTo(Number(slider.value))));
    by("play").addEventListener("click", () => this.turn());
    by("player").hidden = false;
    this.rise.draw(this.at);
    addEventListener("resize", () => this.rise.draw(this.at), { signal });
    addEventListener("beforeprint", () => this.leave(moves.last), { signal });
    this.goTo(this.end);
  }

  /** Plays no more, and does something. */
  leave(move) {
    this.stop();
    move();
  }

  /**
   * Goes to where so many steps are taken.
   * @param {number} step
   */
  goTo(step) {
    const { frames } = this.journal;
    const wanted = Math.min(Math.max(step, 0), this.end);
    if (wanted < this.at) {
      this.ledger.reset();
      this.at = 0;
    }
    for (; this.at < wanted; this.at += 1) this.ledger.apply(frames[this.at]);
    fieldBy("step").value = String(this.at);
    by("step").setAttribute("aria-valuetext", `step ${this.at} of ${this.end}`);
    this.draw();
    this.rise.move(this.at);
  }

  /** Draws what is paid, and says what the step is. */
  draw() {
    const { ledger, journal, amounts } = this;
    ledger.payOutside();
    for (const flow of this.flows) flow.draw(ledger.paidOn[flow.place], journal);
    this.svg.classList.toggle("before-end", this.at < this.end); // what stays unpaid is written of the end
    const words = wordsOf(this, this.at);
    by("raise").textContent = words.raise;
    by("line").textContent = words.line;
    by("sum").textContent =
      `Paid so far from bank to bank: ${amounts.money(ledger.total)} of ${amounts.money(sumOf(journal.owed))}.`;
  }

  /** Plays, from the first step on where it is at the end; or plays no more. */
  turn() {
    if (this.timer) {
      this.stop();
      return;
    }
    if (this.at === this.end) this.goTo(0);
    by("play").textContent = "Pause";
    by("frame").setAttribute("aria-live", "off");
    const pause = Math.min(Math.max(LONG / this.end, LEAST_STEP), MOST_STEP);
    const place = by("player");
    this.timer = this.d3.interval(() => this.tick(place), pause);
  }

  /** Takes a step while it plays. */
  tick(place) {
    if (!place.isConnected) {
      this.timer.stop(); // the desk takes the player away while it plays
    } else if (this.at >= this.end) {
      this.stop();
    } else {
      this.goTo(this.at + 1);
    }
  }

  /** Plays no more. */
  stop() {
    this.timer?.stop();
    this.timer = null;
    by("play").textContent = "Play";
    by("frame").setAttribute("aria-live", "polite");
  }
}

/**
 * Plays a journal in the picture of a page, from its end on; does nothing where there is no journal.
 * @param {import("./ledger.mjs").Journal} journal
 * @param {import("./amounts.mjs").Amounts} amounts
 * @param {SVGSVGElement} svg the picture
 * @param {any} d3 the library
 * @param {AbortSignal} [signal] that ends the listening to the window
 */
export const playJournal = (journal, amounts, svg, d3, signal) => {
  if (journal.frames) new Player(journal, amounts, svg, d3).begin(signal);
};
