// A slider that is dragged asks for the newest value only: while one is asked for, the others but the last are
// passed over.

/**
 * A function that gives each value to the work, one at a time, and only the last of those that came meanwhile.
 * @template T
 * @param {(value: T) => Promise<unknown>} work
 * @returns {(value: T) => boolean} whether the work began at once
 */
export const newest = (work) => {
  let isBusy = false;
  let waiting = null; // the value that comes next, in a list of its own
  const next = async () => {
    while (waiting) {
      const [value] = waiting;
      waiting = null;
      await work(value);
    }
    isBusy = false;
  };
  return (value) => {
    waiting = [value];
    if (isBusy) return false;
    isBusy = true;
    next();
    return true;
  };
};
