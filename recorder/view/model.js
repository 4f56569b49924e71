'use strict';
// All that the page of the view shows, as one plain value: problems, groups, races, actions, and the lines of source around the places. It is kept
// within a size, since a browser has to open it: of a large trace the first races are shown, and how many there are.

const { RECORDS, LANES } = require('../trace/records.js');
const { Words } = require('../races/words.js');
const { choose } = require('./choice.js');
const { sizeOf } = require('./embedded.js');
const { Excerpts } = require('./excerpts.js');
const { countsOf, linesOf } = require('./lines.js');
const { RULES } = require('./rules.js');

/**
 * @typedef {import('../list/types').Race} Race
 * @typedef {import('./types').ShownAction} ShownAction
 * @typedef {import('./types').PackedRace} PackedRace
 * @typedef {import('../list/listing.js').Listing} Listing the list of the run that is shown
 * @typedef {import('../list/sides.js').Sides} Sides
 */

/** The bytes of the model: the page is to have at most 5 MB with its script, also if each of these is one more after the limit. */
const MOST_BYTES = 4500000;
const MOST_OF_ACTIONS = 2200000;
const MOST_LINKS = 20000;
const MOST_ORIGINS = 400;
/** The program is asked about so many pairs at most, so no more are looked for. */
const MOST_TO_EXPLAIN = 300;
/** An action's words are at least this long if they have to be cut. */
const SHORTEST_WORDS = 12;
const KINDS = ['variable', 'element', 'handler'];
/** @type {{[word: string]: string}} a word of races/actions.js, as the list has it */
const ORIGINS = { 'asked for by': 'requested by' };

/** Made by view.js for each view. */
class Model {
  /**
   * @param {import('../list/types').Report} report
   * @param {import('../list/types').Names} names
   * @param {import('../races/actions.js').Actions} actions
   */
  constructor(report, names, actions) {
    this.report = report;
    this.names = names;
    this.actions = actions;
    this.words = new Words(names, actions);
    this.excerpts = new Excerpts(this.words);
    /** @type {Map<number, Set<number>>} */
    this.originsByAction = new Map();
    /** @type {Map<string, number>} the indices of texts */
    this.texts = new Map();
    /** @type {Map<string, number>} */
    this.origins = new Map();
    this.left = MOST_BYTES;
  }

  /**
   * The pairs of actions of which the view shows why they are ordered: what the first race of each group comes from, the largest group first, and the
   * ways from the first action to each other one; the last ones first, since a way to these leads over others. Called by view.js.
   * @returns {[number, number][]}
   */
  pairsToExplain() {
    const firsts = [...this.report.groups].sort((a, b) => b.size - a.size).slice(0, MOST_TO_EXPLAIN).map(({ race }) => race - 1);
    return [...this.pairsOf(firsts), ...this.actions.list.slice(1).reverse().map(({ number }) => /** @type {[number, number]} */ ([0, number]))];
  }

  /**
   * The ways to both actions of races. Called by view.js.
   * @param {number[]} races
   * @returns {[number, number][]}
   */
  pairsOf(races) {
    return races.flatMap((race) => {
      const { actions } = this.report.races[race];
      const common = this.commonOrigin(actions) ?? 0;
      return actions.filter((action) => action !== common).map((action) => /** @type {[number, number]} */ ([common, action]));
    });
  }

  /**
   * Builds the model, with so many links as there is room for. Called by view.js.
   * @param {import('./types').Link[]} links those that the program printed
   * @param {Listing} listing
   */
  build(links, listing) {
    const sides = listing.entries.sidesOf(0);
    const actions = this.buildActions(sides);
    const shownLinks = links.slice(0, MOST_LINKS);
    this.left -= sizeOf(actions) + sizeOf(shownLinks);
    const { races, problems, groups } = choose(this, listing);
    const { report } = this;
    return {
      page: this.names.page || '',
      counts: /** @type {[string, number][]} */ ([['actions', report.actions], ['accesses', report.accesses], ['pairs', report.pairs], ['chains', report.chains], ['links', report.links]]),
      totals: { ...countsOf(listing.inOrder()), groups: report.groups.length, races: report.races.length },
      lanes: LANES,
      kinds: KINDS,
      origins: [...this.origins.keys()],
      texts: [...this.texts.keys()],
      actions,
      listed: linesOf(listing, problems),
      problems,
      groups,
      races,
      links: shownLinks,
      rules: RULES,
      files: this.excerpts.files,
      lines: this.excerpts.lines,
      excerpts: this.excerpts.excerpts,
    };
  }

  /**
   * The index of a text.
   * @param {string} text
   */
  text(text) {
    let index = this.texts.get(text);
    if (index === undefined) {
      index = this.texts.size;
      this.texts.set(text, index);
      this.left -= sizeOf(text);
    }
    return index;
  }

  // ---- actions

  /**
   * All actions in the words of the list, with shorter ones if these would be too much.
   * @param {Sides} sides
   */
  buildActions({ callbacks }) {
    const words = this.actions.list.map(({ number }) => callbacks.withArticle(number));
    const size = sizeOf([...new Set(words)]);
    const most = size > MOST_OF_ACTIONS ? Math.max(SHORTEST_WORDS, Math.floor(MOST_OF_ACTIONS / words.length)) : Infinity;
    return this.actions.list.map((action, k) => this.action(action, words[k].length > most ? `${words[k].slice(0, most)}…` : words[k]));
  }

  /**
   * An action as the view has it.
   * @param {import('../races/actions.js').Action} action
   * @param {string} words
   * @returns {ShownAction}
   */
  action(action, words) {
    const own = this.actions.list[action.first];
    const { lane } = /** @type {{[word: string]: {lane: string}}} */ (RECORDS)[own.words[0]];
    return [LANES.indexOf(lane), action.line, this.text(words), action.origins.map(({ action: from, word }) => [this.origin(ORIGINS[word] || word), from])];
  }

  /**
   * The index of a word of origins.
   * @param {string} word
   */
  origin(word) {
    const index = this.origins.get(word) ?? this.origins.size;
    this.origins.set(word, index);
    return index;
  }

  /**
   * The actions from which one comes, over the notes of the trace, itself among them.
   * @param {number} number
   */
  originsOf(number) {
    const known = this.originsByAction.get(number);
    if (known) return known;
    const seen = new Set([number]);
    for (const one of seen) {
      if (seen.size > MOST_ORIGINS) break;
      this.actions.list[one].origins.forEach(({ action }) => seen.add(action));
    }
    this.originsByAction.set(number, seen);
    return seen;
  }

  /**
   * The last action from which two come, or null.
   * @param {[number, number]} actions
   */
  commonOrigin([first, second]) {
    const others = this.originsOf(second);
    let last = -1;
    for (const one of this.originsOf(first)) {
      if (one > last && others.has(one)) last = one;
    }
    return last < 0 ? null : last;
  }

  // ---- races

  /**
   * A race as the view has it, in the words of the list. Called by choice.js.
   * @param {Race} race
   * @param {number} index
   * @param {number} problem the index of the one in whose line it is
   * @param {Listing} listing
   * @returns {PackedRace}
   */
  race(race, index, problem, listing) {
    const { kind } = this.words.location(race.location);
    const sides = listing.entries.sidesOf(0);
    const words = sides.inLine(index, listing.runs[0].ofRaces[index].look.look);
    const places = race.lines.map((line, k) => {
      const { key, added } = this.excerpts.add(this.words.placeOfAccess(line, race.actions[k]));
      this.left -= sizeOf(added);
      return key;
    });
    return [index + 1, KINDS.indexOf(kind), this.text(sides.thing(race.location)), race.location, race.modes, race.lines, race.actions, this.commonOrigin(race.actions), race.group - 1,
      problem, this.text(words), places];
  }
}

module.exports = { Model, MOST_LINKS };
