// The page of the report works without this: it adds sorting, filters, pages, files, the bank under the pointer, and
// the player of the journal, by the library d3.
import { Amounts } from "./amounts.mjs";
import { layParts } from "./bankpart.mjs";
import { BankTable } from "./banktable.mjs";
import { showChosen } from "./chosen.mjs";
import { by } from "./elements.mjs";
import { playJournal } from "./player.mjs";
import { giveFiles } from "./reportfiles.mjs";

const data = JSON.parse(by("data").textContent);
const svg = /** @type {SVGSVGElement} */ (document.querySelector("svg.net"));
const amounts = new Amounts(data);
const table = new BankTable(data);
table.begin();
layParts();
showChosen(table, svg, data.flows, amounts);
giveFiles(data.files);
playJournal(data, amounts, svg, globalThis.d3);
by("journal")?.removeAttribute("hidden");
