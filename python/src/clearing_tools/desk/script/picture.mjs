// The picture: what differs from the state that one is held against, in the accent. Up to forty banks stand on a
// circle, each at its place in all states; of more there are blocks of a matrix, and on a small screen a list.
import { showCircle } from "./circle.mjs";
import { by } from "./elements.mjs";
import { showList } from "./list.mjs";
import { Matter } from "./matter.mjs";
import { showMatrix } from "./matrix.mjs";

const MOST_ON_CIRCLE = 40;
const LEAST_WIDE = 600; // pixels below which there is a list
const WIDE = 720; // where the width is not known

/**
 * The picture that is shown: its form, from which amount on amounts are written on it, whether all that differ are,
 * and whether blocks of a matrix are of banks by their size.
 * @typedef {{form: string, writtenFrom?: number | null, isAllWritten?: boolean, isBySize?: boolean}} Picture
 */

/**
 * Shows the picture that fits the width and the number of banks.
 * @param {import("./desk.mjs").Desk} desk
 */
export const showPicture = (desk) => {
  const place = by("picture");
  const wide = desk.wide || WIDE;
  const matter = new Matter(desk);
  desk.matter = matter;
  const show = wide < LEAST_WIDE ? showList : matter.names.length > MOST_ON_CIRCLE ? showMatrix : showCircle;
  desk.picture = show(desk, matter, place, wide);
  place.dataset.form = desk.picture.form;
  by("key").hidden = wide < LEAST_WIDE;
  markPicture(desk);
};

/**
 * Gives the chosen bank its ring, and fades what is not its own.
 * @param {import("./context.mjs").Context} context
 */
export const markPicture = ({ bank: chosen }) => {
  /** @type {NodeListOf<HTMLElement>} */
  const debts = by("picture").querySelectorAll("[data-flow]");
  for (const element of debts) {
    const ends = element.dataset.flow.split("-").map(Number);
    element.classList.toggle("far", chosen !== null && !ends.includes(chosen));
  }
  /** @type {NodeListOf<HTMLElement>} */
  const banks = by("picture").querySelectorAll("[data-bank]");
  for (const element of banks) element.classList.toggle("chosen", Number(element.dataset.bank) === chosen);
};
