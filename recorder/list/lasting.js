'use strict';
// Stable names of races and problems: the same in each recording of the page, also if lines were added above or a build renamed files.
// A race's name is that of its problem and a second part, so whoever knows the problem knows the race. They identify a problem, by the text of its code and not
// by line numbers: a hash.

const { createHash } = require('node:crypto');
const { FIRST_MODULE, FIRST_OBJECT } = require('../common/numbers.js');
const { Keys } = require('../races/keys.js');
const { isByValue, withoutKeys } = require('../races/spelled-locations.js');
const { SourceText, shortAddress, lastingAddress } = require('../races/source-text.js');

/**
 * @typedef {import('./types').Race} Race
 * @typedef {import('./types').Names} Names
 * @typedef {{location: string, mode: string, action: number, line: number}} Side
 */

/** Events whose target is no part of a problem: what a user clicked at. */
const EVENTS = new Set(['fire', 'wfire', 'inline']);
const LENGTH = 12;
const LENGTH_OF_RACE = 6;

/** @param {string} text @param {number} length */
const hashed = (text, length) => createHash('sha256').update(text).digest('hex').slice(0, length);
/** @param {string} text */
const withoutNumbers = (text) => text.replace(/\d+/g, '0');
/**
 * A number that is this long is new in each run, as the time or a random one.
 * @param {string} text
 */
const withoutLongNumbers = (text) => text.replace(/\d{5,}/g, '0');

/** @type {WeakMap<Names, SourceText>} */
const textsOf = new WeakMap();

/**
 * The order of two sides by their names: 1 or 2, so that the sum of both says that both orders came; 0 if they have one name.
 * @param {string[]} sides
 * @returns {0|1|2}
 */
function orderOf([first, second]) {
  if (first === second) return 0;
  return first < second ? 1 : 2;
}

/** @param {string[]} sides those of a race, which has two */
const inOrder = ([first, second]) => (first <= second ? [first, second] : [second, first]);

/** Made for each trace in a list, by problems.js; also by replay-race.js and suite-loads.js, which find a race again. */
class LastingNames extends Keys {
  /** @param {string} text a trace @param {Names} names */
  constructor(text, names) {
    super(text, names, true);
    /** @type {Names} */
    this.names = names;
    /**
     * An access is in many races: its side by its line.
     * @type {Map<number, string>}
     */
    this.sites = new Map();
    /** @type {Map<number, Map<string, number>>} by action, the line of its first access to each location */
    this.firsts = new Map();
    /** @type {Map<number, string>} by action */
    this.details = new Map();
    /** @type {Map<string, string>} by location */
    this.wheres = new Map();
    /** @type {Map<string, string>} by location */
    this.locations = new Map();
    /**
     * Names of problems, by what is hashed.
     * @type {Map<string, string>}
     */
    this.problems = new Map();
  }

  // ---- what a replay's name has, and a stable one has not

  /**
   * A name without the count of NamedRun: the order in which equal things came can be another one.
   * @param {string} name
   */
  counted(name) {
    return name;
  }

  /** No name contains which act of the user it was. */
  act() {
    return '';
  }

  /**
   * Called by the constructor of `Keys`, before the fields of this class exist.
   * @param {import('./types').Place|null|undefined} place
   */
  place(place) {
    if (!place) return '';
    let texts = textsOf.get(this.names);
    if (!texts) textsOf.set(this.names, texts = new SourceText(this.names));
    return texts.at(place);
  }

  /**
   * The address of a document without what changes from build to build.
   * @param {string} number @returns {string}
   */
  document(number) {
    return lastingAddress(super.document(number));
  }

  /**
   * A request without what changes from run to run.
   * @param {string} number @returns {string}
   */
  request(number) {
    return shortAddress(super.request(number).replace(/^(\S*) (\S*)/, (/** @type {string} */ whole, /** @type {string} */ method, /** @type {string} */ url) => `${method} ${shortAddress(url)}`));
  }

  // ---- sides

  /**
   * The place of an access that code makes.
   * @param {Side} side
   */
  placeOfSide({ location, mode, line }) {
    return location.startsWith('slot') && mode === 'r' ? '' : this.place(this.placeInName(line));
  }

  /**
   * What kind of code or event acts: a handler and an event with their types.
   * @param {number} number @returns {string}
   */
  kindOf(number) {
    const action = this.actions.list[this.actions.list[number].first];
    const [word, , , c] = action.words; // of its record: `fire DISPATCH ELEMENT TYPE`, `run DISPATCH GROUP HANDLER`
    if (EVENTS.has(word)) return `event ${c}`;
    if (word === 'run') return `handler ${this.names.handlers[c]?.type || ''}`;
    return word === 'tick' ? 'timer' : word;
  }

  /**
   * One side of a problem: the place of its code; if that is not known, what acts.
   * @param {Side} side
   */
  site(side) {
    const kind = this.kindOf(side.action);
    const place = this.placeOfSide(side);
    const mode = isByValue(side.location) ? 'access' : side.mode;
    if (place) return `${mode} ${kind} ${place}`;
    return `${mode} ${kind} ${kind.startsWith('event') || kind === 'parse' ? '' : withoutNumbers(this.action(side.action))}`;
  }

  /**
   * The place of a side, by the text there.
   * @param {Side} side
   */
  siteOf(side) {
    const line = isByValue(side.location) ? this.firstLine(side) : side.line;
    return found(this.sites, line, () => this.site({ ...side, line }));
  }

  /**
   * The line of an action's first access to a location: the trace lacks that of a write that changes nothing.
   * @param {Side} side
   */
  firstLine({ action, location, line }) {
    return found(this.firsts, action, () => this.firstLines(action)).get(location) ?? line;
  }

  /**
   * The lines of an action's first accesses, by location.
   * @param {number} action
   */
  firstLines(action) {
    const { list, lines } = this.actions;
    /** @type {Map<string, number>} */
    const firsts = new Map();
    const end = list[action + 1]?.line ?? lines.length + 1;
    for (let k = list[action].line; k < end; k++) {
      const text = lines[k - 1];
      const location = text.slice('w '.length);
      if (/^[rw] /.test(text) && !firsts.has(location)) firsts.set(location, k);
    }
    return firsts;
  }

  /** @param {Side} side */
  detailsOf({ action }) {
    return found(this.details, action, () => withoutLongNumbers(this.action(action)));
  }

  /**
   * The two sides of a race.
   * @param {Race} race @returns {Side[]}
   */
  sidesOf({ location, modes, actions, lines }) {
    return [0, 1].map((k) => this.asDone({ location, mode: modes[k], action: actions[k], line: lines[k] }));
  }

  /**
   * The location of a race. The items of an array are one; an object is known by what made it, and a closure by the text of its function.
   * @param {string} location
   */
  where(location) {
    const [kind, digits, name] = location.split(' ');
    const number = Number(digits);
    if (kind !== 'var' || number < FIRST_MODULE) return this.words.location(location).text;
    const facts = this.names.objects?.[number];
    if (number < FIRST_OBJECT) return `${name} of the module ${lastingAddress(facts?.module || '')}`;
    const isItem = facts?.made === 'array' && /^(\d+(\.\.)?|\(items\)|length)$/.test(name);
    return `${isItem ? '(items)' : withoutKeys(name)} of ${this.object(number)}`;
  }

  /**
   * The names of a race of the report and of its problem; `sites` tells the two sides apart in any run.
   * @param {Race} race
   * @returns {{problem: string, name: string, sites: string[], order: 0|1|2, ownOrder: 0|1|2}} `order` is 1 or 2, by which place came first, and
   *   `ownOrder` by which side; 0 if they are equal
   */
  nameRace(race) {
    const sides = this.sidesOf(race);
    const sites = sides.map((side) => this.siteOf(side));
    const where = found(this.wheres, race.location, () => withoutNumbers(this.where(race.location)));
    const whole = [race.location.slice(0, race.location.indexOf(' ')), where, ...inOrder(sites)].join('\n');
    const problem = found(this.problems, whole, () => hashed(whole, LENGTH));
    const details = sides.map((side, k) => `${sites[k]} ${this.detailsOf(side)}`);
    const location = found(this.locations, race.location, () => withoutLongNumbers(this.location(race.location, 'w')));
    const own = hashed([location, ...inOrder(details)].join('\n'), LENGTH_OF_RACE);
    return { problem, name: `${problem}.${own}`, sites, order: orderOf(sites), ownOrder: orderOf(details) };
  }
}

/**
 * What a map has for a key; found if it has nothing yet.
 * @template K, V
 * @param {Map<K, V>} known @param {K} key @param {() => V} find
 */
function found(known, key, find) {
  let value = known.get(key);
  if (value === undefined) known.set(key, value = find());
  return value;
}

module.exports = { LastingNames };
