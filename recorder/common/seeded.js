'use strict';
// Numbers by chance that are the same in each run with one seed, for `--chaos` (recording/chaos.js, responses/chaos-network.js). Each use starts its text with
// a word of its own. Another formula gives each seed another order. A pseudo-random number generator: a hash of a text and the seed.

/**
 * A number from 0 up to 1 for a seed and a text.
 * @param {number} seed
 * @param {string} text
 */
function seeded(seed, text) {
  let value = Math.imul(seed + 1, 2654435761) >>> 0;
  for (let k = 0; k < text.length; k++) value = Math.imul(value ^ text.charCodeAt(k), 16777619) >>> 0;
  value = Math.imul(value ^ (value >>> 16), 2246822507);
  value = Math.imul(value ^ (value >>> 13), 3266489909);
  return ((value ^ (value >>> 16)) >>> 0) / 4294967296;
}

module.exports = { seeded };
