'use strict';
/* eslint-env browser */
// In how many points (pixels) two pictures (screenshots) of a page differ, and where. The browser itself reads them. How many must differ: `FEWEST_POINTS` in
// differences.js.

const { Tab } = require('../../browser/tab.js');

/** Of the empty tab that compares: no picture is shown in it. */
const SIZE = { width: 200, height: 200 };

/** @typedef {{points: number, differing: number, boxes: number[][]}} Points how many points there are and differ, and where: `[x, y, width, height]`, in parts of the whole */

/**
 * Runs in an empty page, which gets this function and the next ones as one text: counts the points in which two pictures differ.
 * @param {string} first a PNG in base64
 * @param {string} second
 * @returns {Promise<Points>}
 */
async function countPoints(first, second) {
  const CELL = 20; // points of a side of a square: the view frames squares that differ, not points
  const MOST_BOXES = 40;
  const MOST_ALIKE = 16; // of 255, for each color: points that differ by less look alike
  const [a, b] = [await readPicture(first), await readPicture(second)];
  const points = a.width * a.height;
  if (a.width !== b.width || a.height !== b.height) return { points, differing: points, boxes: [[0, 0, 1, 1]] };
  let differing = 0;
  /**
   * The first and the last cell of each row of cells that differ.
   * @type {Map<number, [from: number, to: number]>}
   */
  const rows = new Map();
  for (let k = 0; k < a.data.length; k += 4) {
    const distance = Math.max(Math.abs(a.data[k] - b.data[k]), Math.abs(a.data[k + 1] - b.data[k + 1]), Math.abs(a.data[k + 2] - b.data[k + 2]));
    if (distance <= MOST_ALIKE) continue;
    differing++;
    const [x, y] = [Math.floor(((k / 4) % a.width) / CELL), Math.floor(k / 4 / a.width / CELL)];
    const row = rows.get(y) || [x, x];
    rows.set(y, [Math.min(row[0], x), Math.max(row[1], x)]);
  }
  const part = (/** @type {number} */ value, /** @type {number} */ whole) => Math.round((Math.min(value * CELL, whole) / whole) * 1000) / 1000;
  const boxes = boxesOf(rows).slice(0, MOST_BOXES).map(({ top, bottom, from, to }) => {
    const [x, y] = [part(from, a.width), part(top, a.height)];
    return [x, y, part(to + 1, a.width) - x, part(bottom, a.height) - y];
  });
  return { points, differing, boxes };
}

/**
 * The points of a picture. It runs in a page (`countingOf`).
 * @param {string} data a PNG in base64
 */
async function readPicture(data) {
  const image = new Image();
  image.src = `data:image/png;base64,${data}`;
  await image.decode();
  const canvas = document.createElement('canvas');
  [canvas.width, canvas.height] = [image.width, image.height];
  const context = canvas.getContext('2d');
  if (!context) throw new Error('no canvas');
  context.drawImage(image, 0, 0);
  return context.getImageData(0, 0, image.width, image.height);
}

/**
 * Joins rows of cells that are next to each other and overlap.
 * @param {Map<number, [from: number, to: number]>} rows
 */
function boxesOf(rows) {
  /** @type {{top: number, bottom: number, from: number, to: number}[]} */
  const boxes = [];
  for (const [y, [from, to]] of [...rows].sort(([one], [other]) => one - other)) {
    const above = boxes[boxes.length - 1];
    if (above && above.bottom === y && above.from <= to && from <= above.to) {
      above.bottom = y + 1;
      above.from = Math.min(above.from, from);
      above.to = Math.max(above.to, to);
    } else boxes.push({ top: y, bottom: y + 1, from, to });
  }
  return boxes;
}

/**
 * @param {string} first
 * @param {string} second
 */
const countingOf = (first, second) => `(() => { ${readPicture} ${boxesOf} ${countPoints} return countPoints(${JSON.stringify(first)}, ${JSON.stringify(second)}); })()`;

/** A part of `Differences`. */
class Pictures {
  /** @param {import('../../browser/protocol.js').Protocol} browser */
  constructor(browser) {
    this.browser = browser;
    /**
     * The tab in which pictures are compared.
     * @type {Promise<Tab>|null}
     */
    this.tab = null;
  }

  /**
   * How many points differ, of how many, and where; null if one picture is missing. Called by differences.js.
   * @param {import('./end-state.js').Picture|null} first
   * @param {import('./end-state.js').Picture|null} second
   * @returns {Promise<Points|null>}
   */
  async compare(first, second) {
    if (!first || !second) return null;
    if (first.whole === second.whole) return { points: 1, differing: 0, boxes: [] };
    this.tab = this.tab || Tab.open(this.browser, SIZE); // only one, also if several compare at once
    const tab = await this.tab;
    const { result } = await tab.send('Runtime.evaluate', { expression: countingOf(first.whole, second.whole), returnByValue: true, awaitPromise: true });
    return result.value || null;
  }

  /** Closes the tab in which pictures are compared. Called by differences.js. */
  async close() {
    await this.tab?.then((tab) => tab.close()).catch(() => {}); // the browser may have gone
  }
}

module.exports = { Pictures };
