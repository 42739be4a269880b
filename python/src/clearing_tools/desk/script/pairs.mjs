// Debts between two banks, all classes together. Each pair of banks has one place in all states of a network, so that
// two states are held against one another place by place.

/**
 * Sums over the places of pairs: claims and what is paid, in units, and how many debts there are.
 * @typedef {{claims: Float64Array, paid: Float64Array, counts: Int32Array}} Sums
 */

/**
 * What a debtor owes a creditor and pays of it, in units, and how much more is unpaid than before.
 * @typedef {{debtor: number, creditor: number, claim: number, paid: number, unpaid: number, more: number}} Flow
 */

/** The pairs of banks that have a debt. One that is added at the desk gets a place when it is first met. */
export class Pairs {
  /** @param {{names: string[], debtors: number[], creditors: number[], claims: number[]}} network */
  constructor(network) {
    this.size = network.names.length;
    this.debtors = [];
    this.creditors = [];
    this.places = new Map();
    this.of = Int32Array.from(network.claims, (_, key) => this.place(network.debtors[key], network.creditors[key]));
    this.given = network.claims;
    this.whole = this.nothing(); // all debts of the files
    this.given.forEach((claim, key) => this.add(this.whole, this.of[key], claim, 0));
    this.held = new WeakMap(); // the sums of states, for as long as a state is held
  }

  /**
   * The place of a pair, a new one where it has none yet.
   * @param {number} debtor
   * @param {number} creditor
   * @returns {number}
   */
  place(debtor, creditor) {
    const pair = debtor * this.size + creditor;
    let place = this.places.get(pair);
    if (place === undefined) {
      place = this.debtors.length;
      this.places.set(pair, place);
      this.debtors.push(debtor);
      this.creditors.push(creditor);
    }
    return place;
  }

  /**
   * Sums to which nothing was added yet.
   * @returns {Sums}
   */
  nothing() {
    const count = this.debtors.length;
    return { claims: new Float64Array(count), paid: new Float64Array(count), counts: new Int32Array(count) };
  }

  /** Adds a debt to sums. */
  add(sums, place, claim, paid) {
    sums.claims[place] += claim;
    sums.paid[place] += paid;
    sums.counts[place] += 1;
  }

  /**
   * The sums of a state, held for as long as the state is.
   * @param {object} view
   * @returns {Sums}
   */
  sumsOf(view) {
    if (!this.held.has(view)) this.hold(view, this.sums(view));
    return this.held.get(view);
  }

  /**
   * Holds the sums of a state.
   * @param {object} view
   * @param {Sums} sums
   */
  hold(view, sums) {
    this.held.set(view, sums);
  }

  /**
   * The sums of a state, added up anew.
   * @param {object} view
   * @returns {Sums}
   */
  sums({ flows, keys, changedDebts }) {
    if (!keys && !changedDebts.length) {
      const paid = new Float64Array(this.whole.claims.length);
      const { of } = this;
      for (let key = 0; key < flows.length; key += 1) paid[of[key]] += flows[key];
      return { ...this.whole, paid };
    }
    const changed = new Map(changedDebts.map((debt) => [debt[0], debt]));
    return this.summed(flows.map((paid, at) => {
      const key = keys ? keys[at] : at;
      if (!changed.has(key)) return [this.of[key], this.given[key], paid];
      const [, debtor, creditor, , , claim] = changed.get(key);
      return [this.place(debtor, creditor), claim, paid];
    }));
  }

  /**
   * The sums of some debts.
   * @param {[number, number, number][]} debts each as the place of its pair, its claim and what is paid, in units
   * @returns {Sums}
   */
  summed(debts) {
    const sums = this.nothing();
    for (const [place, claim, paid] of debts) this.add(sums, place, claim, paid);
    return sums;
  }
}

/**
 * Goes over the pairs that have a debt in one of two states.
 * @param {Pairs} pairs
 * @param {Sums} before
 * @param {Sums} now
 * @param {boolean} isSame whether both are one
 * @param {(debtor: number, creditor: number, claim: number, paid: number, more: number) => void} take gets each: its
 *   banks, claim and what is paid now, and how much more is unpaid than before, in units
 */
export const eachFlow = ({ debtors, creditors }, before, now, isSame, take) => {
  for (let place = 0; place < debtors.length; place += 1) {
    const isNow = now.counts[place] > 0;
    const wasThere = !isSame && before.counts[place] > 0;
    if (!isNow && !wasThere) continue;
    const claim = isNow ? now.claims[place] : 0;
    const paid = isNow ? now.paid[place] : 0;
    const unpaidBefore = wasThere ? before.claims[place] - before.paid[place] : 0;
    take(debtors[place], creditors[place], claim, paid, claim - paid - unpaidBefore);
  }
};

/**
 * The pairs of two states that have a debt in one of them.
 * @param {Pairs} pairs
 * @param {Sums} before
 * @param {Sums} now
 * @param {boolean} isSame whether both are one
 * @returns {Flow[]}
 */
export const flowsOf = (pairs, before, now, isSame) => {
  const found = [];
  eachFlow(pairs, before, now, isSame, (debtor, creditor, claim, paid, more) => {
    found.push({ debtor, creditor, claim, paid, unpaid: claim - paid, more });
  });
  return found;
};
