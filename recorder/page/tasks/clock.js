// A clock that a program puts in the place of the browser's, as test suites do (fake timers): what it calls back has no timer.

const OTHER_CLOCK = 'clocks that a program put in the place of the browser\'s, whose callbacks have no timer';
/** A library that only looks at timers, as zone.js, leaves the date. */
const NAMES = /** @type {const} */ (['setTimeout', 'Date']);

/** One for each document: `page.clock`. */
class Clock {
  /** @param {import('../types').Page} page */
  constructor(page) {
    this.page = page;
    /** @type {unknown[]} what the window has in the end of its start */
    this.own = [];
    this.isOther = false;
  }

  /** What `look` compares later: the functions of the browser, or of the recorder in their place. */
  start() {
    this.own = [this.#current(NAMES[0]), this.#current(NAMES[1])];
  }

  /**
   * What a global of the page is now, without calling a getter of the page.
   * @param {string} name
   */
  #current(name) {
    const descriptor = this.page.globals.propertyOf(name);
    return descriptor && 'value' in descriptor ? descriptor.value : descriptor?.get;
  }

  /** Counts another clock, once. Called by page/accesses/unseen.js. */
  look() {
    if (this.isOther || !this.own.length) return;
    const { 0: timeout, 1: date } = this.own;
    this.isOther = this.#current(NAMES[0]) !== timeout && this.#current(NAMES[1]) !== date;
    if (this.isOther) this.page.recording.log.miss(OTHER_CLOCK);
  }
}

export { Clock };
