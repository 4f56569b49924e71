'use strict';
// Where the list has a race: by the place at the start of its entry, since no entry has the number of a race.

/** @typedef {import('./listing.js').Listing} Listing */

/** Made by replay-results.js when the list has its order. */
class EntryPlaces {
  /** @param {Listing} listing */
  constructor(listing) {
    this.listing = listing;
    /** @type {Map<string, {place: string, index: number}>} by the name of a problem with a line */
    this.entries = new Map();
    listing.inOrder().forEach(({ problems }, index) => {
      const place = listing.entries.placeOf(problems[0]);
      problems.forEach(({ name }) => this.entries.set(name, { place, index }));
    });
    this.byName = new Map(listing.problems.map((one) => [one.name, one]));
  }

  /**
   * The place at the start of its problem and of its entry, and the number of the entry.
   * @param {number} run
   * @param {number} race its index
   */
  of(run, race) {
    const { ofRaces } = this.listing.runs[run];
    const problem = this.byName.get(ofRaces[race]?.problem);
    const entry = ofRaces[race] && this.entries.get(this.listing.lineOfRace(run, race));
    return { own: problem ? this.listing.entries.placeOf(problem) : '', place: entry?.place || '', index: entry?.index ?? -1 };
  }
}

module.exports = { EntryPlaces };
