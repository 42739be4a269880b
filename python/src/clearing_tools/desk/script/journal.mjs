// Plays the journal of a state, by the player that the report has, in a drawing of its own.
import { Amounts } from "./amounts.mjs";
import { see } from "./ask.mjs";
import { by, draw } from "./elements.mjs";
import { playJournal } from "./player.mjs";

const SCALE = 1.1; // of the drawing against its own size

/** The drawing of the server, in which all names are escaped. */
const drawingOf = ({ box: [left, top, right, bottom], form, body }) => {
  const [width, height] = [right - left, bottom - top];
  const svg = /** @type {SVGSVGElement} */ (draw("svg", {
    class: `net chart ${form}`,
    viewBox: [left, top, width, height].join(" "),
    width: Math.round(SCALE * width),
    role: "group",
    "aria-label": "The network while the journal is played",
  }));
  svg.innerHTML = body;
  return svg;
};

/** The part of the page in which a journal is played. */
export class JournalPart {
  /** @param {import("./desk.mjs").Desk} desk */
  constructor(desk) {
    this.desk = desk;
    this.listening = null; // of the player to the window, while there is one
  }

  /** Takes the player away. */
  end() {
    this.listening?.abort();
    this.listening = null;
    by("player-place").replaceChildren();
    by("journal-picture").replaceChildren();
  }

  /** Takes the player away, and what is told of it. */
  leave() {
    this.end();
    this.tell("");
  }

  tell(words) {
    by("journal-told").textContent = words;
  }

  /** Shows the player for the state at hand, where d3 is there. */
  async play() {
    const { d3 } = /** @type {any} */ (globalThis);
    if (!d3) {
      this.tell("The journal is played by d3, Debian's package node-d3, which is not there.");
      return;
    }
    const { view, base } = this.desk;
    this.tell("The program is asked.");
    const { value, fault } = await see(`journal/${view.id}`);
    if (view !== this.desk.view) return;
    const costs = view.keep === base.keep ? "" : "This is the journal of the clearing without costs of default.";
    this.tell(fault ? fault.said : costs);
    if (!fault) this.show(value, d3);
  }

  /** Shows the player in the drawing that the server sent. */
  show({ picture, data }, d3) {
    this.end();
    this.listening = new AbortController();
    const svg = drawingOf(picture);
    const player = /** @type {HTMLTemplateElement} */ (by("player-of-a-journal"));
    by("journal-picture").replaceChildren(svg);
    by("player-place").replaceChildren(player.content.cloneNode(true));
    playJournal(data, new Amounts(data), svg, d3, this.listening.signal);
    by("play").focus();
  }
}
