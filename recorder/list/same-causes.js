'use strict';
// Late handlers of different calls that one callback or script registers: one change may mend them all, so an entry names the first one above it.

/**
 * @typedef {import('./entries.js').Entries} Entries
 * @typedef {import('./listing.js').Listed} Listed
 */

/** A part of `Entries`. */
class SameCauses {
  /** @param {Entries} entries */
  constructor(entries) {
    this.entries = entries;
    /**
     * The lines for which the causes were found: replays make other ones.
     * @type {Listed[]|null}
     */
    this.lines = null;
    /** @type {Map<string, [label: string, text: string]>} by the name of the problem */
    this.causes = new Map();
  }

  /**
   * The entry above that has the same cause, as a label and its text; two empty texts if there is none. Called by entries.js.
   * @param {Listed} line @returns {[label: string, text: string]}
   */
  of(line) {
    const { listing } = this.entries;
    if (this.lines !== listing.lines) {
      this.lines = listing.lines;
      this.find();
    }
    return this.causes.get(line.name) || ['', ''];
  }

  /** Finds the first entry of each cause. */
  find() {
    this.causes.clear();
    /** @type {Map<string, string>} the places of the entries by the run and what registers their handlers */
    const firsts = new Map();
    for (const { line } of this.entries.listing.told()) {
      const { registrar, place } = this.entries.toldOf(line);
      if (!registrar) continue;
      const key = `${line.run} ${registrar}`;
      const first = firsts.get(key);
      if (first === undefined) firsts.set(key, place);
      else this.causes.set(line.name, [`same cause as ${first} above`, `one ${registrar.split(' ')[0]} registers both handlers`]);
    }
  }
}

module.exports = { SameCauses };
