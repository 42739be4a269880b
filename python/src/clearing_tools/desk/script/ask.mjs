// What is asked of the server: GET to see, POST to change. Paths are relative: they stand behind the ticket with which
// the page's own address begins.

/**
 * What the program or the server does not take: what is said, what it means, and at which field of the page.
 * @typedef {{said: string, meaning?: string, field?: string}} Fault
 */

/**
 * An answer: its value, or the fault that is told instead.
 * @typedef {{value?: any, fault?: Fault}} Answer
 */

/**
 * How far a question is: its pieces behind those seen, how many have come and of how many, for how long, and how it
 * ended.
 * @typedef {Object} Told
 * @property {any[]} [pieces]
 * @property {number} [come]
 * @property {number} [of]
 * @property {number} [seconds]
 * @property {boolean} [ended]
 * @property {boolean} [stopped]
 * @property {string} [fault]
 */

const FIRST_PAUSE = 60, LAST_PAUSE = 500; // milliseconds between two looks at a question
const SLOWER = 1.5; // how much longer each pause is than the one before

/** @returns {Promise<Answer>} */
const answer = async (sent) => {
  let response;
  try {
    response = await sent;
  } catch {
    return { fault: { said: "The desk does not answer: it has ended.", meaning: "", field: "" } };
  }
  if (!(response.headers.get("Content-Type") ?? "").startsWith("application/json")) {
    return { fault: { said: (await response.text()).trim(), meaning: "", field: "" } };
  }
  const value = await response.json();
  return response.ok ? { value } : { fault: value };
};

/**
 * What is there at a path.
 * @param {string} path
 * @returns {Promise<Answer>}
 */
export const see = (path) => answer(fetch(path, { headers: { Accept: "application/json" } }));

/**
 * What a request with an object answers.
 * @param {string} path
 * @param {object} what
 * @returns {Promise<Answer>}
 */
export const post = (path, what) => answer(
  fetch(path, {
    method: "POST",
    headers: { "Content-Type": "application/json" },
    body: JSON.stringify(what),
  }),
);

const wait = (milliseconds) => new Promise((done) => {
  setTimeout(done, milliseconds);
});

/**
 * Follows a question that goes on.
 * @param {number} question its number
 * @param {(piece: any) => void} take gets each piece as it comes
 * @param {(told: Told) => void} [tell] gets how far it is
 * @param {() => boolean} [isWanted] whether to go on
 * @returns {Promise<Told>} what was told last
 */
export const follow = async (question, take, tell = () => {}, isWanted = () => true) => {
  let after = 0;
  let pause = FIRST_PAUSE;
  for (;;) {
    const { value, fault } = await see(`question/${question}/${after}`);
    if (fault) return { fault: fault.said };
    if (!isWanted()) return { ended: false };
    value.pieces.forEach(take);
    after += value.pieces.length;
    tell(value);
    if (value.ended) return value;
    await wait(pause);
    pause = Math.min(LAST_PAUSE, SLOWER * pause);
  }
};
