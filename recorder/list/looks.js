'use strict';
// Which pattern a race has (patterns/accesses.js, all: patterns/table.js), from the trace and its names alone: it is a reader's first hint, and decides
// nothing. As a late handler (a button is clicked too early), a use before the definition (no lazy initialization), overwriting replies (a late response to an
// older request), a counter, a flag, writes of the same value (equal: patterns/accesses.js; how harmless: its section in patterns/table.js, its severity in
// rank.js). The usual change: fixes.js.

const { FIRST_FIELD, FIRST_MODULE } = require('../common/numbers.js');
const { isOfTree } = require('../races/spelled-locations.js');
const { Accesses, isNothing } = require('./patterns/accesses.js');
const { EndedCallbacks } = require('./patterns/ended.js');
const { IdleHandlers } = require('./patterns/idle.js');
const { UserActs } = require('./patterns/user-acts.js');
const { Remaining } = require('./patterns/remaining.js');
const { isRemoval } = require('./patterns/removals.js');
const { UNCHANGED, detailOf, isAgain, lookOf } = require('./patterns/table.js');
const { isTypedOver } = require('./patterns/typed.js');
const { linkOf } = require('./without-handler.js');

/**
 * @typedef {import('./patterns/table.js').Look} Look
 * @typedef {import('./types').Race} Race
 */

/** @param {Race} race @param {string} modes */
const pairOf = ({ actions }, modes) => `${actions.join(' ')} ${modes}`;

/**
 * The pattern of a race whose two sides come from acts of a user.
 * @param {boolean} isOne whether they come from one act
 */
const actsOf = (isOne) => lookOf('acts', `${isOne ? 'both come from one act of a user' : 'two acts of a user'}: only another input of the user changes the order`, isOne ? 'one' : '');

/**
 * The form fields of elements: what a user types or chooses.
 * @param {string} location
 */
function isField(location) {
  const number = Number(location.split(' ')[1]);
  return location.startsWith('var') && number >= FIRST_FIELD && number < FIRST_MODULE && !isOfTree(location);
}

/** A part of `Problems`. */
class Looks {
  /**
   * @param {import('./types').Report} report
   * @param {import('./types').Names} names
   * @param {import('../races/words.js').Words} words
   */
  constructor(report, names, words) {
    this.words = words;
    this.actions = words.actions;
    this.accesses = new Accesses(names, words.actions, words.sources);
    this.userActs = new UserActs(names, words.actions.list);
    /**
     * By two actions and their modes: the first race of flags, and the first one at another location.
     * @type {Map<string, Race[]>}
     */
    this.flags = new Map();
    for (const race of report.races) this.noteFlag(race);
    /** @type {Map<string, {line: number, delay: string, first: number}>} the line, the delay and the first tick of each interval */
    this.intervals = new Map();
    this.readIntervals(names);
    this.ended = new EndedCallbacks(names, words.actions);
    this.idle = new IdleHandlers(names, words.actions);
    this.remaining = new Remaining(report, this.accesses, words.actions);
  }

  /**
   * Notes a race of flags, if there are not two of its actions and modes.
   * @param {Race} race
   */
  noteFlag(race) {
    if ((race.modes !== 'rw' && race.modes !== 'wr') || !this.accesses.isFlag(race)) return;
    const key = pairOf(race, race.modes);
    const known = this.flags.get(key);
    if (!known) this.flags.set(key, [race]);
    else if (known.length === 1 && known[0].location !== race.location) known.push(race);
  }

  /**
   * Finds the intervals (`setInterval`) and the first tick of each.
   * @param {import('./types').Names} names
   */
  readIntervals(names) {
    this.actions.lines.forEach((/** @type {string} */ line, /** @type {number} */ k) => {
      if (!line.startsWith('every ')) return;
      const [, number, delay] = line.split(' ');
      if (names.intervals[number]?.why === 'setInterval') this.intervals.set(number, { line: k + 1, delay, first: -1 });
    });
    for (const { number, words: [word, interval] } of this.actions.list) {
      const one = word === 'tick' && this.intervals.get(interval);
      if (one && one.first < 0) one.first = number;
    }
  }

  /**
   * The pattern of a race: the first that fits. Called by problems.js.
   * @param {Race} race @returns {Look}
   */
  look(race) {
    const acts = race.actions.map((action) => this.userActs.actOf(action));
    if (acts[0] && acts[1]) return actsOf(acts[0] === acts[1]);
    if (race.location.startsWith('slot ')) return this.handler(race, acts) || lookOf('other');
    const ended = this.cleared(race);
    const isWritten = race.modes === 'ww';
    return this.alike(race) || (isWritten && ended) || this.writes(race, acts) || this.typed(race) || this.flag(race) || this.use(race) || ended || this.scratch(race) || lookOf('other');
  }

  /**
   * The pattern of a race between an event and the registration of its handler; null if the handler is removed.
   * @param {Race} race @param {number[]} acts
   */
  handler(race, acts) {
    const k = race.modes.indexOf('r');
    if (k < 0 || isRemoval(this.accesses, race.location, race.lines[1 - k])) return null;
    const number = race.actions[k];
    const look = acts[k] ? 'late' : 'missed';
    const [, target, slot] = race.location.split(' ');
    const [type, handler = ''] = slot.split('/');
    const isUnchanged = k === 1 && this.idle.isUnchanged(number, handler);
    const here = k === 0 ? 'here it came before the handler was set' : `here the handler was there${isUnchanged ? UNCHANGED : ''}`;
    const isOfLittle = look === 'missed' || this.idle.isOfLittle(number, target, type);
    const link = look === 'late' ? this.linkOf(number, type, isUnchanged) : '';
    const facts = { isUnchanged, isIdle: isUnchanged && isOfLittle, isOfLittle, comesAgain: look === 'late' && isAgain(type), link };
    return lookOf(look, `a handler that comes late: ${this.words.action(number)} may find none; ${here}`, detailOf(look, 'slot', type), facts);
  }

  /**
   * Whether an event is a click at a link, or comes along with it. A handler that ran and changed nothing might ask before the browser follows the link.
   * @param {number} number of the action that starts the dispatch @param {string} type @param {boolean} isUnchanged
   * @returns {Look['link']}
   */
  linkOf(number, type, isUnchanged) {
    const { words: [word, , element] } = this.actions.list[this.actions.list[number].first];
    const link = word === 'fire' || word === 'inline' ? linkOf(this.words, element, type) : '';
    return link === 'click' && isUnchanged ? '' : link;
  }

  /**
   * What has the same result in either order.
   * @param {Race} race
   */
  alike(race) {
    if (this.accesses.isSameValue(race)) return lookOf('same', 'both write the same value');
    if (race.lines.every((line, k) => this.accesses.isCount(race, k))) return lookOf('counter', 'a counter that both sides count up, and of which neither uses the value');
    return this.ticks(race);
  }

  /**
   * The first ticks of two intervals with the same delay come in the order in which these were set, which no rule says.
   * @param {Race} race
   */
  ticks({ actions }) {
    const [first, second] = actions.map((number) => this.actions.list[number]).map(({ number, words: [word, interval] }) => {
      const one = word === 'tick' && this.intervals.get(interval);
      return one && one.first === number ? one : null;
    });
    if (!first || !second || first.delay !== second.delay || first.line > second.line) return null;
    return lookOf('ticks', `the first ticks of two intervals of ${first.delay} ms, which come in the order in which they were set`);
  }

  /**
   * A callback, and code that clears it: if this code comes first, the callback does not come. It may need what the callback writes (`use`).
   * @param {Race} race
   */
  cleared(race) {
    return this.ended.of(race) ? lookOf('ended', 'a callback that the other side clears; here it came first') : null;
  }

  /**
   * Both sides write, and a side writes over what the other one wrote.
   * @param {Race} race @param {number[]} acts
   */
  writes(race, acts) {
    if (race.modes !== 'ww') return null;
    const { location, actions, lines } = race;
    const act = acts.findIndex(Boolean);
    const isOver = (/** @type {number} */ k) => !this.accesses.isUpdate(lines[k], actions[k], location);
    if (act >= 0) return isOver(1 - act) && !this.accesses.isScratch(location) ? this.overAct(race, act) : null;
    const requests = actions.map((action) => this.userActs.requestOf(action));
    const isOfTwo = requests[0] && requests[1] && requests[0] !== requests[1];
    return isOfTwo && (isOver(0) || isOver(1)) ? lookOf('replies', 'an answer may overwrite a newer one') : null;
  }

  /**
   * A write over what an act of the user wrote; `act` is the side of the act.
   * @param {Race} race
   * @param {number} act the side of the user's act
   */
  overAct({ location }, act) {
    const order = act === 0 ? 'here the user came first, and it was written over' : 'here the user came last';
    if (isField(location)) return lookOf('field', `a field written over what a user typed; ${order}`);
    return lookOf('act', `what a user's act wrote may be written over; ${order}`);
  }

  /**
   * A write over what a user typed, before anything has read it; null if it is none.
   * @param {Race} race
   */
  typed(race) {
    if (!isField(race.location) || !isTypedOver(race, this.accesses, this.actions.list)) return null;
    return lookOf('field', `a field written over what a user typed, before it is read; here it was ${race.modes[0] === 'w' ? 'written' : 'read'} first`, 'read');
  }

  /**
   * Each side writes what the other one reads.
   * @param {Race} race
   */
  flag(race) {
    if ((race.modes !== 'rw' && race.modes !== 'wr') || !this.accesses.isFlag(race)) return null;
    const turned = race.modes === 'rw' ? 'wr' : 'rw';
    const other = this.flags.get(pairOf(race, turned))?.find((one) => one.location !== race.location);
    return other ? lookOf('flag', `a flag that both sides ask: each sets one and reads the other's, ${this.words.location(other.location).text}`) : null;
  }

  /**
   * A read or a lookup that found nothing, or that would without the write before it. What the same code wrote before is there in any order.
   * The code around the read is not known: a lookup in `if (x)` has this pattern too. Only a read that finds nothing and whose action then writes is left out,
   * as of a cache (`isOfCache`).
   * @param {Race} race
   */
  use({ location, modes, lines, actions }) {
    const { accesses } = this;
    const k = modes.indexOf('r');
    const [read, write] = [lines[k], lines[1 - k]];
    if (k < 0 || accesses.kept[read] || isNothing(accesses.values[write]) || !accesses.isEmptyBefore(write, location)) return null;
    const value = accesses.values[read];
    if (accesses.isWrittenBefore(location, actions[k], read) || accesses.isOfCache(read, actions[k], location)) return null;
    const what = location.startsWith('elem') ? 'a look-up before the element is there' : 'a use before the definition';
    const detail = detailOf('undefined', location.split(' ')[0], '');
    if (k === 1) return accesses.isEmpty(value, location) || this.remaining.isFoundWithout(location, actions[1 - k], actions[k], read) ? null : lookOf('undefined', `${what}: here it was there, and in the other order nothing is found`, detail);
    const hasFound = value === undefined ? accesses.isWrittenBetween(location, read, write) : !accesses.isEmpty(value, location);
    return hasFound ? null : lookOf('undefined', `${what}: here nothing was found`, detail);
  }

  /**
   * A variable that each action writes whole before it reads it: whichever comes first, nothing is lost. Null if it is none.
   * @param {Race} race
   */
  scratch({ location, modes, lines, actions }) {
    const { kept } = this.accesses;
    const isOwn = lines.every((line, k) => modes[k] === 'w' || kept[line] || this.accesses.isWrittenBefore(location, actions[k], line));
    return isOwn && this.accesses.isScratch(location) ? lookOf('scratch', 'each action that writes it writes all of it, and none reads what another one wrote') : null;
  }
}

module.exports = { Looks };
