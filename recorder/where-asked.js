'use strict';
// Questions that were asked before (where-questions.json), each with the file that has its answer, for where-rank.js: a question that is like one of them leads
// to its file. And double questions ("which .., and where .."), each part of which is a question of its own.

const { stemsIn, isStop } = require('./where-words.js');

/** @typedef {{question: string, files: string[]}} Asked the first file is the best one */
/** @typedef {{forms: {stems: string[], quality: number}[], rarity: number}} Wanted a word of the question, as of where-rank.js */
/** @typedef {{like: number, question: string}} Near how like an asked question is to the one that was typed, from 0 to 1 */

/** The second file of a question counts so much less. */
const SECOND = 0.97;
/** A part of a double question begins with one of these words, after a comma or `and`. */
const PART = /(?:[,;?]\s+(?:and\s+|or\s+)?|\s+(?:and|or)\s+)(?=(?:which|where|when|who|what|why|how|is|are|does|do|can|from|to|by|in)\b)|\?\s+/i;
/** A part with fewer words that say something is no question. */
const FEWEST_WORDS = 1;

/** @param {string} text */
const plain = (text) => text.toLowerCase().replace(/[^\w$.-]+/g, ' ').trim();

/** The questions, by the stems of their words. */
class AskedBefore {
  /**
   * @param {Asked[]} asked
   * @param {(stem: string) => number} rarityOf
   */
  constructor(asked, rarityOf) {
    /** @type {Map<string, {question: number, rarity: number}[]>} */
    this.byStem = new Map();
    this.asked = asked.map(({ question, files }, k) => {
      let all = 0;
      for (const stem of new Set(question.split(/[^\w$.-]+/).filter((word) => word && !isStop(word)).flatMap(stemsIn))) {
        const rarity = rarityOf(stem);
        all += rarity;
        this.byStem.set(stem, [...this.byStem.get(stem) || [], { question: k, rarity }]);
      }
      return { question, files, all, text: plain(question) };
    });
  }

  /**
   * How like each file's best question is to one with these words.
   * @param {Wanted[]} wanted
   * @param {string} typed the question
   * @param {string} [without] a question that does not count
   * @returns {Map<string, Near>} by file
   */
  near(wanted, typed, without = '') {
    const text = plain(typed);
    const had = new Float64Array(this.asked.length);
    const all = wanted.reduce((sum, { rarity }) => sum + rarity, 0);
    for (const { forms, rarity } of wanted) {
      /** @type {Map<number, number>} */
      const best = new Map();
      for (const { stems, quality } of forms) {
        const lists = stems.map((stem) => this.byStem.get(stem) || []);
        for (const { question } of lists[0]) {
          if (lists.every((list) => list.some((one) => one.question === question))) best.set(question, Math.max(best.get(question) || 0, quality));
        }
      }
      for (const [question, quality] of best) had[question] += quality * rarity;
    }
    /** @type {Map<string, Near>} */
    const found = new Map();
    this.asked.forEach(({ question, files, all: own, text: same }, k) => {
      if (!had[k] || question === without) return;
      const whole = same === text ? 1 : Math.min(1, had[k] / Math.sqrt(all * own));
      files.forEach((file, n) => {
        const like = n ? whole * SECOND : whole;
        if (like > (found.get(file)?.like || 0)) found.set(file, { like, question });
      });
    });
    return found;
  }
}

/**
 * The parts of a double question; one part of any other.
 * @param {string} question
 */
function partsOf(question) {
  const parts = question.split(PART).map((part) => part.trim()).filter((part) => part);
  const isPart = (/** @type {string} */ part) => part.split(/\s+/).filter((word) => !isStop(word.replace(/\W/g, ''))).length >= FEWEST_WORDS;
  return parts.length > 1 && parts.every(isPart) ? parts : [question];
}

module.exports = { AskedBefore, partsOf };
