'use strict';
// The two sides of a race as the list shows them: what each does, to what, where, and in which callback. Stable names are made from other texts. The reader and
// the writer, or two writers.

const { FIRST_FIELD, FIRST_OBJECT } = require('../common/numbers.js');
const { shown } = require('../common/shown.js');
const { Callbacks } = require('./callbacks.js');
const { ElementWords } = require('./element-words.js');
const { fixOf } = require('./fixes.js');
const { orderOf, writtenOf } = require('./other-order.js');
const { EVENTS, isInLibraries, lookUpOf, repliesOf } = require('./race-facts.js');
const { callOf, wayOf } = require('./registering-calls.js');
const { isRemoval } = require('./patterns/removals.js');
const { sentenceOf } = require('./sentences.js');

/**
 * @typedef {import('./types').Place} Place
 * @typedef {import('./types').Race} Race
 * @typedef {import('./patterns/table.js').LookKey} LookKey
 * @typedef {import('./problems.js').Problems} Problems
 */
/**
 * `verb` and `what` say what it does, `actor` the callback or the event. `event` is set for an event that looks for handlers, `act` for a user's act. `own`
 * is `at`, or the place from which that comes, if it is in the page's own code.
 * @typedef {{verb: string, what: string, place: string, actor: string, event: string, act: string, at: Place|null, own: Place|null}} Side
 */
/**
 * The sentence without its place, that place, the two sides, the call that registers a late handler and the script or callback that does (else ''), which order
 * the recording had and what the other one does, and a usual change.
 * @typedef {{sentence: string, place: string, sides: [Side, Side], call: string, registrar: string, recorded: string, turned: string, fix: string}} Told
 */

const NAME = /^[\w$.]+$/;
/** Names of properties that no code can write after a dot; `(items)`, `[key]` and `#name` are none. */
const KEY = /^(?![([#])[\p{L}\p{N}_$][^`"\\]{0,40}$/u;

/**
 * A name in the marks of code, if it is a name.
 * @param {string} text
 */
const marked = (text) => (text.includes(' ') && !text.endsWith('"]') ? `the ${text}`.replace(/^the the /, 'the ') : `\`${text}\``);

/** A part of `Entries`. */
class Sides {
  /**
   * @param {Problems} problems
   * @param {(file: number) => string|null} fileOf the name by which a terminal finds a file, or null
   */
  constructor(problems, fileOf = () => null) {
    this.problems = problems;
    this.words = problems.words;
    this.fileOf = fileOf;
    this.elements = new ElementWords(this.words, (place) => this.place(place, false));
    this.callbacks = new Callbacks(this.words, this.elements, (place) => this.place(place));
  }

  // ---- places

  /**
   * A place as a compiler prints it.
   * @param {Place|null|undefined} place
   */
  place(place, hasColumn = true) {
    if (!place) return '';
    const [file, line, column] = place;
    return `${this.fileOf(file) ?? this.words.fileName(file)}:${line}${hasColumn || this.words.sources.isLong(place) ? `:${column}` : ''}`;
  }

  /**
   * The place of an access with the line of a library that makes it.
   * @param {Place|null} at @param {number} line of the trace @param {string} location
   */
  placeAndWay(at, line, location) {
    const way = wayOf(this.words, line, location, at);
    return `${this.place(at)}${way ? ` (via ${this.place(way)})` : ''}`;
  }

  /** The page, if no place is known. */
  page() {
    const { names } = this.problems;
    return shown((names.documents['0']?.address || names.page || '').replace(/[?#].*$/, '').replace(/^.*\/(?=.)/, '')) || 'page';
  }

  // ---- things

  /**
   * A property of an object that has a name is `name.property`, and a variable of a function its name.
   * @param {string} location
   */
  thing(location) {
    const [, digits, spelled] = location.split(' ');
    const { text } = this.words.location(location);
    const facts = Number(digits) >= FIRST_OBJECT ? this.problems.names.objects?.[digits] : undefined;
    const name = this.words.unescape(spelled);
    if (facts?.scope !== undefined && NAME.test(name)) return name;
    const owner = facts?.text && facts.scope === undefined && NAME.test(facts.text) ? facts.text : '';
    if (owner && NAME.test(name)) return `${owner}.${name}`;
    if (owner && KEY.test(name)) return `${owner}["${shown(name)}"]`;
    return this.elements.inText(location, text);
  }

  /**
   * The element of a field.
   * @param {string} location
   */
  field(location) {
    const number = Number(location.split(' ')[1]);
    return number >= FIRST_FIELD && number < FIRST_OBJECT ? this.elements.of(number - FIRST_FIELD) : this.thing(location);
  }

  // ---- sides

  /**
   * What one side of a race does, to what, and where.
   * @param {Race} race @param {number} k @returns {Side}
   */
  side({ location, modes, lines, actions }, k) {
    const { kind } = this.words.location(location);
    const number = actions[k];
    const isEvent = kind === 'handler' && modes[k] === 'r';
    const at = this.words.placeOfAccess(lines[k], number);
    const event = isEvent ? this.eventInWords(number) : null;
    const verb = isEvent ? event?.verb || 'event' : this.verb(kind, modes[k], lines[k], location);
    const what = isEvent ? event?.target || this.callbacks.of(number) : this.thing(location);
    return {
      verb, what, at, place: this.placeAndWay(at, lines[k], location), actor: isEvent && event ? '' : this.callbacks.of(number), event: event?.words || '',
      act: this.actInWords(number), own: at && !this.words.isOfLibrary(at) ? at : this.callbacks.ownOrigin(number),
    };
  }

  /**
   * The event that an action looks up handlers of, as `click at a`; null if it looks up none, as a callback.
   * @param {number} number of the action
   * @returns {{verb: string, target: string, words: string}|null} `words` is the verb and the target
   */
  eventInWords(number) {
    const { words: [word, , element, type] } = this.words.actions.list[this.words.actions.list[number].first];
    if (!EVENTS.has(word) || type === 'then') return null;
    const target = word === 'wfire' ? 'the window' : this.elements.named(element);
    const verb = `${this.words.unescape(type)} at`;
    return { verb, target, words: `${verb} ${target}` };
  }

  /**
   * What distinguishes a side from those of other races: the target of an event, else the callback. Called by entries.js.
   * @param {Race} race
   * @param {number} k
   */
  actorOf(race, k) {
    return this.eventAt(race, k)?.target ?? this.callbacks.of(race.actions[k]);
  }

  /**
   * The event that a side is, if it looks for handlers. Called by entries.js.
   * @param {Race} race @param {number} k
   */
  eventAt({ location, modes, actions }, k) {
    return location.startsWith('slot ') && modes[k] === 'r' ? this.eventInWords(actions[k]) : null;
  }

  /**
   * The place of a side; '' for an event: its targets have places of their own. Called by entries.js.
   * @param {Race} race @param {number} k
   */
  whereOf(race, k) {
    return this.eventAt(race, k) ? '' : this.place(this.words.placeOfAccess(race.lines[k], race.actions[k]));
  }

  /**
   * What a user did, as `the click at a`, if an action comes from that.
   * @param {number} number of the action
   * @returns {string} '' if it comes from no act
   */
  actInWords(number) {
    const { userActs } = this.problems;
    if (!userActs.actOf(number)) return '';
    const { dispatch } = this.words.actions.list[this.firstOf(number)];
    const event = this.eventInWords(dispatch ? dispatch.number : number) || this.eventInWords(userActs.eventOf(number).number);
    return event ? `the ${event.words}` : '';
  }

  /**
   * What an access does, in a word.
   * @param {string} kind @param {string} mode @param {number} line @param {string} location
   */
  verb(kind, mode, line, location) {
    if (kind === 'handler') return isRemoval(this.problems.accesses, location, line) ? 'removes' : 'registers';
    if (kind === 'element') return mode === 'w' ? 'adds or changes' : 'looks up';
    if (mode === 'r' && this.problems.names.kept?.[line]) return 'writes again';
    return mode === 'w' ? 'writes' : 'reads';
  }

  /**
   * The side whose place the page's author would change: the registration of a handler, the write over what a user did, the early use. Called by entries.js.
   * @param {Race} race @param {LookKey} look
   */
  leading({ modes, actions }, look) {
    const reader = modes.indexOf('r');
    if (look === 'late' || look === 'missed') return 1 - reader;
    if (look === 'ended') return 1 - (this.problems.ended.of({ actions })?.side ?? 0);
    if (look === 'field' || look === 'act') return this.problems.userActs.actOf(actions[0]) ? 1 : 0;
    return Math.max(reader, 0);
  }

  /**
   * What the list says of a race: its sentence and its two sides.
   * @param {number} index of the race in the report, from 0 (races are printed from 1) @param {LookKey} look @returns {Told}
   */
  of(index, look) {
    const race = this.problems.report.races[index];
    const { kind } = this.words.location(race.location);
    const first = this.leading(race, look);
    const sides = this.apart(race, first);
    const event = lookUpOf(this, race);
    const at = sides[0].own || event.script?.place || sides[1].own || sides[0].at || sides[1].at;
    const thing = kind === 'handler' ? this.thing(race.location) : marked(this.thing(race.location));
    const subjects = this.callbacks.subjects(race.actions[first], race.actions[1 - first]);
    const replies = look === 'replies' ? repliesOf(this, race) : undefined;
    const ended = look === 'ended' ? this.problems.ended.inWords(race, this.callbacks, (line) => this.place(this.words.placeOfLine(line), false)) : null;
    const ofOneAct = this.problems.userActs.ofOneAct(race.actions);
    const isReplaced = this.problems.isReplaced(race);
    const facts = { sides, subjects, thing, ofOneAct, field: this.field(race.location), modes: race.modes, kind, isReplaced, otherwise: event.otherwise, replies, ended };
    const order = orderOf(this, race, look, first, facts);
    if (look === 'other') this.addWritten(sides, race, first);
    const use = { kind, isOfUser: !!sides[0].act, modes: race.modes, isOfOneAct: !!ofOneAct, isInLibraries: isInLibraries(this, race), replace: replies?.replace, change: order.change, line: sides[0].own?.[1], ...event, script: event.script?.file };
    return {
      sentence: sentenceOf(look, facts), place: at ? this.place(at, false) : this.page(), sides, recorded: order.recorded, turned: order.turned, fix: fixOf(look, use),
      call: callOf(this.words, race), registrar: look === 'late' || look === 'missed' ? this.registrarOf(race.actions[first]) : '',
    };
  }

  /**
   * Adds what the sides write, to the names of what they write.
   * @param {[Side, Side]} sides @param {Race} race @param {number} first the side of the race that is shown first
   */
  addWritten(sides, race, first) {
    sides.forEach((side, k) => {
      const text = marked(side.what).startsWith('`') ? writtenOf(this, race, k === 0 ? first : 1 - first) : '';
      if (text) side.what += ` = ${text}`;
    });
  }

  /**
   * What registers a handler: the script or the callback, and its action.
   * @param {number} action
   */
  registrarOf(action) {
    const number = this.firstOf(action);
    return `${this.words.actions.list[number].words[0] === 'exec' ? 'script' : 'callback'} ${number}`;
  }

  /**
   * A race in one line: what its two sides do, where, and in which callbacks.
   * @param {number} index of the race in the report, from 0 @param {LookKey} look
   */
  inLine(index, look) {
    const race = this.problems.report.races[index];
    return this.apart(race, this.leading(race, look)).map(({ verb, what, place, actor }) => `${verb} ${what}${place && ` at ${place}`}${actor && ` (${actor})`}`).join('; ');
  }

  /**
   * The two sides of a race, told apart; if nothing else does, by the numbers of their runs.
   * @param {Race} race @param {number} first @returns {[Side, Side]}
   */
  apart(race, first) {
    let sides = this.both(race, first);
    if (isAlike(sides)) sides = this.words.apart(() => this.both(race, first));
    if (isAlike(sides)) sides.forEach((side, k) => { side.actor = `${side.actor || side.what}, run ${this.words.nthOf(this.firstOf(race.actions[k === 0 ? first : 1 - first])) + 1}`; });
    return sides;
  }

  /** @param {Race} race @param {number} first @returns {[Side, Side]} */
  both(race, first) {
    return [this.side(race, first), this.side(race, 1 - first)];
  }

  /**
   * The first action of the event that an action is in.
   * @param {number} number
   */
  firstOf(number) {
    return this.words.actions.list[number].first;
  }
}

/** @param {[Side, Side]} sides */
const isAlike = ([one, two]) => `${one.what} ${one.place} ${one.actor}` === `${two.what} ${two.place} ${two.actor}`;

/**
 * The sentence with its place. Called by entries.js.
 * @param {{sentence: string, place: string}} told
 */
const summaryOf = ({ sentence, place }) => `${sentence} at ${place}`;

module.exports = { Sides, summaryOf };
