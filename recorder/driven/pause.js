'use strict';
// When a recording is written: that keeps this process busy, and a page that loads meanwhile would wait for its scripts.

const { sleep } = require('../common/time.js');

/** Without a request or a response for so many milliseconds, no page loads. */
const QUIET = 150;
/** A load that is over is written at the latest after so many milliseconds. */
const LONGEST = 2000;
const POLL = 20;

/** Made by BrowserRecorder; loads wait for it before they are written. */
class Pause {
  constructor() {
    this.last = 0;
    this.isOver = false;
  }

  /** A request or a response came. Called by browser-recorder.js. */
  note() {
    this.last = Date.now();
  }

  /** From now on, nothing is waited for: the browser has ended. Called by browser-recorder.js. */
  end() {
    this.isOver = true;
  }

  /**
   * Waits for a pause. After work that kept this process busy, what came meanwhile is heard only between two looks. Called by browser-recorder.js.
   * @param {number} since when the load ended, or when it is to be written
   */
  async wait(since) {
    for (let quiet = 0; quiet < 2 && !this.isOver && Date.now() - since < LONGEST; quiet++) {
      if (Date.now() - this.last < QUIET) quiet = -1;
      await sleep(POLL);
    }
  }
}

module.exports = { Pause };
