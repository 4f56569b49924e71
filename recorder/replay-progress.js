'use strict';
// What is printed about races while they are replayed: a line for each that is done, and on a terminal how many runs are under way.

const { printError } = require('./common/output.js');
const { Progress } = require('./progress.js');

/** Made by replay-command.js. */
class ReplayProgress {
  /**
   * @param {import('./replay/runs.js').Runs} runs
   * @param {number} count of races
   */
  constructor(runs, count) {
    this.runs = runs;
    this.count = count;
    this.done = 0;
    this.start = Date.now();
    this.progress = process.stderr.isTTY ? new Progress(process.stderr, () => this.inWords()) : null;
  }

  inWords() {
    const { current, done } = this.runs;
    return `${this.done} of ${this.count} done, runs of the page: ${done} done, ${current.size} under way${this.left()}`;
  }

  /** What is left takes about as long for each race as what is done. */
  left() {
    const seconds = (Date.now() - this.start) / 1000;
    const left = this.done ? Math.round((seconds / this.done) * (this.count - this.done)) : 0;
    return left ? `, about ${left} s left` : '';
  }

  /**
   * Prints that a race is done.
   * @param {number} number
   * @param {string} words
   */
  print(number, words) {
    this.done++;
    this.progress?.clear();
    const runs = this.runs.counts.get(number) || 0;
    const seconds = ((Date.now() - this.start) / 1000).toFixed(1);
    printError(`  ${this.done} of ${this.count}: ${words} (${runs} run${runs === 1 ? '' : 's'}; ${seconds} s${this.left()})`);
  }

  end() {
    this.progress?.end();
  }
}

module.exports = { ReplayProgress };
