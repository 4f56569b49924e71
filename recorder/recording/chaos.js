'use strict';
// Where the parser of a page is paused by chance (`er_record --chaos`), as it is if the next bytes of the page come late: a script is there for which it
// waits, as in a replay, and which the page's half of the recorder takes out again.

const { HOLD_NAME } = require('../browser/content-policy.js');
const { seeded } = require('../common/seeded.js');
const { sleep } = require('../common/time.js');
const { readTags, SVG, MATH } = require('../instrument/tags.js');

/** At most so many pauses a page, each for at most so many milliseconds. */
const MOST_PAUSES = 4;
const LONGEST = 120;
/** A script before one of these would change what the parser makes of it, or would not run. */
const NOT_BEFORE = new Set(['html', 'head', 'body', 'frameset', 'frame', 'col', 'colgroup', 'caption']);

/** @typedef {import('../browser/responses/paused.js').Insertion} Insertion */

/** The `Holds` (browser/responses/paused.js) of a run without a replay: HoldScripts calls it. Made by session.js. */
class ChaosHolds {
  /** @param {number} seed */
  constructor(seed) {
    this.seed = seed;
    this.isInline = false;
    /** @type {Map<string, number>} the number of each pause by the page and the place in it */
    this.numbers = new Map();
  }

  /** No response is held back here: see ChaosNetwork. */
  isMet() {
    return false;
  }

  /**
   * The parser waits for a script that was put into a page: HoldScripts then answers its request.
   * @param {number} id of the pause, as in `insertions`
   */
  async holdFor(id) {
    await sleep(seeded(this.seed, `pause ${id}`) * LONGEST);
  }

  /**
   * The number of a place where the parser is paused.
   * @param {string} place
   */
  numberOf(place) {
    const number = this.numbers.get(place) || this.numbers.size + 1;
    this.numbers.set(place, number);
    return number;
  }

  /**
   * The pauses in the copy of a page, by the seed.
   * @param {string} address
   * @param {string} html
   * @returns {Insertion[]}
   */
  insertions(address, html) {
    if (!/^https?:/.test(address) || / \(srcdoc/.test(address)) return [];
    const tags = readTags(html).filter(({ name, namespace, inTemplate }) => !inTemplate && namespace && namespace !== SVG && namespace !== MATH && !NOT_BEFORE.has(name));
    const path = new URL(address).pathname;
    /** @type {Set<number>} */
    const starts = new Set();
    for (let k = 0; k < Math.min(MOST_PAUSES, tags.length); k++) {
      if (seeded(this.seed, `page ${k} ${path}`) < 0.5) starts.add(tags[Math.floor(seeded(this.seed, `tag ${k} ${path}`) * tags.length)].start);
    }
    return [...starts].sort((a, b) => a - b).map((start) => {
      const source = new URL(`/${HOLD_NAME}?${this.numberOf(`${path} ${start}`)}`, address).href;
      return { start, end: start, insert: `<script data-er-hold nonce="${HOLD_NAME}" src="${source}"></script>` };
    });
  }
}

module.exports = { ChaosHolds };
