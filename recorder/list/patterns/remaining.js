'use strict';
// Whether a read finds something without the write of its race: what another action wrote before it, or an element that comes only with its attributes.

const { FIRST_FIELD, FIRST_MODULE } = require('../../common/numbers.js');

/**
 * @typedef {import('../types').Report} Report
 * @typedef {import('./accesses.js').Accesses} Accesses
 */

/** Made by list/looks.js, as its `remaining`. */
class Remaining {
  /**
   * @param {Report} report
   * @param {Accesses} accesses
   * @param {import('../../races/actions.js').Actions} actions
   */
  constructor(report, accesses, actions) {
    this.report = report;
    this.accesses = accesses;
    this.actions = actions;
    /** @type {Map<string, Set<string>>|null} by location, the pairs of actions that have a race there, once they are asked for */
    this.pairs = null;
  }

  /**
   * Whether the action of a read finds something if it comes before the write with which it has a race, or does not read at all then. Called by list/looks.js.
   * @param {string} location @param {number} writer the action @param {number} reader the action @param {number} read the line
   */
  isFoundWithout(location, writer, reader, read) {
    return this.isOfNewElement(location, writer) || this.isWrittenByOther(location, writer, reader, read);
  }

  /**
   * Whether an action wrote a variable of an element before the element was in the page, or when it came: who finds the element finds the variable.
   * @param {string} location @param {number} writer
   */
  isOfNewElement(location, writer) {
    const [kind, number] = location.split(' ');
    if (kind !== 'var' || Number(number) < FIRST_FIELD || Number(number) >= FIRST_MODULE) return false;
    const declared = this.actions.declared.get(`element ${Number(number) - FIRST_FIELD}`);
    return declared !== undefined && writer <= declared;
  }

  /**
   * Whether the last write that comes before the read in any order, so of an action without a race with the reader, has left something: as an element of
   * two with one id.
   * @param {string} location @param {number} writer @param {number} reader @param {number} read
   */
  isWrittenByOther(location, writer, reader, read) {
    const pairs = this.pairsAt(location);
    const { accesses } = this;
    const others = accesses.of(location).filter(({ line, action, isWrite }) => isWrite && line < read && action !== writer && !pairs.has(`${action} ${reader}`));
    const last = others[others.length - 1];
    return last !== undefined && accesses.values[last.line] !== undefined && !accesses.isEmpty(accesses.values[last.line], location);
  }

  /**
   * The pairs of actions that have a race at a location, the earlier one first.
   * @param {string} location
   */
  pairsAt(location) {
    if (!this.pairs) {
      this.pairs = new Map();
      for (const race of this.report.races) {
        const known = this.pairs.get(race.location);
        const pair = race.actions.join(' ');
        if (known) known.add(pair);
        else this.pairs.set(race.location, new Set([pair]));
      }
    }
    return this.pairs.get(location) || new Set();
  }
}

module.exports = { Remaining };
