// Finds banks by a part of their names or of their labels.

const NAMED = 0, BEGINS = 1, HAS = 2, NONE = 3; // how near a bank is to what is sought

// A letter with an accent is the letter.
const folded = (text) => text.normalize("NFKD").replace(/\p{M}/gu, "").toLocaleLowerCase();

/**
 * The places of the banks that have a text in their names: those whose name it is first, then those that begin with
 * it, then those that have it.
 * @param {string[]} names
 * @param {string[]} labels the full names, empty where there is none
 * @param {string} text
 * @param {number} [most] how many there are at most
 * @returns {number[]}
 */
export const matches = (names, labels, text, most = 12) => {
  const sought = folded(text.trim());
  if (!sought) return [];
  const nearness = (bank) => {
    const both = [folded(names[bank]), folded(labels[bank] ?? "")];
    if (both.includes(sought)) return NAMED;
    if (both.some((name) => name.startsWith(sought))) return BEGINS;
    return both.some((name) => name.includes(sought)) ? HAS : NONE;
  };
  return names
    .map((_, bank) => ({ bank, near: nearness(bank) }))
    .filter(({ near }) => near < NONE)
    .sort((one, other) => one.near - other.near || one.bank - other.bank)
    .slice(0, most)
    .map(({ bank }) => bank);
};
