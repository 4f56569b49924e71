'use strict';
// Looks in the log of a run for one access, or for its action without the access: what a hold waits for: whether the second access of a race has come. The page
// sends its lines when a task is over, so what has come is over too.

const { readKeys } = require('./read-run.js');

/**
 * The records of the log that start an action, by the first word of its key.
 * @type {{[word: string]: string}}
 */
const STARTS = { timer: 'timer|tick', tick: 'tick|module', event: 'fire|inline|wfire', exec: 'exec|module' };

/** Made for each run that holds something back: by runs.js and load-steering.js. */
class Due {
  /**
   * @param {import('../races/types').AccessIdentity} wanted
   * @param {Parameters<typeof readKeys>[1]} options of the recording
   * @param {boolean} isLoose how the keys are made
   */
  constructor(wanted, options, isLoose) {
    this.wanted = wanted;
    this.options = options;
    this.isLoose = isLoose;
    this.seen = 0;
    const [word] = wanted.actionKey.split(' ');
    this.line = new RegExp(`^(${STARTS[word] || word}|back) `);
  }

  /**
   * Whether there are new lines that start an action of the wanted kind.
   * @param {{text: string}[]} entries
   */
  mayHaveCome(entries) {
    const isNew = entries.slice(this.seen);
    this.seen = entries.length;
    return isNew.some(({ text }) => this.line.test(text));
  }

  /**
   * Whether the access, or its action, is in the log by now. Called by steering.js.
   * @param {import('../recording/recorder.js').Recorder} recorder
   */
  hasCome(recorder) {
    if (!this.mayHaveCome(recorder.intake.entries)) return false;
    const { keys } = readKeys(recorder, this.options, this.isLoose);
    return (keys.find(this.wanted) || keys.findAction(this.wanted)) !== null;
  }
}

module.exports = { Due };
