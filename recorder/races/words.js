'use strict';
// Actions and races in words (`the reply to GET data.json`), with the places in the page's source. Sentences that describe a race.

const { FIRST_FOREIGN_TIMEOUT } = require('../common/numbers.js');
const { shown } = require('../common/shown.js');
const { ThingWords } = require('./thing-words.js');

/** @typedef {import('./types').Place} Place */
/** @typedef {import('./actions.js').Action} Action */

/** The type of a handler that stands for code which nothing recorded has called (page/tasks/jobs.js); its words too. */
const UNSEEN = 'code whose caller is not seen';

/**
 * What is before the name of the function, and after it.
 * @type {{[why: string]: [string, string]}}
 */
const INTERVALS = {
  setInterval: ['the interval', ' set'], requestAnimationFrame: ['the animation frame', ' asked for'], webkitRequestAnimationFrame: ['the animation frame', ' asked for'],
  requestIdleCallback: ['the idle callback', ' asked for'], 'import()': ['the module', ' asked for'], 'a javascript: address': ['the run of a javascript: address', ''],
};
/** Actions that run no code. */
const NO_RUN = new Set(['fire', 'wfire', 'inline', 'dcl', 'load', 'eload', 'parse', 'message']);
const ORDINALS = ['first', 'second', 'third', 'fourth', 'fifth', 'sixth', 'seventh', 'eighth', 'ninth', 'tenth'];

/** Made for a whole trace: by the list and replays as a part of `NamedRun`, by the view for its model. */
class Words extends ThingWords {
  /**
   * @param {import('./types').NamesOfTrace} names
   * @param {import('./actions.js').Actions} actions
   */
  constructor(names, actions) {
    super(names, actions);
    /**
     * Of each action: which one it is of the actions with the same words.
     * @type {number[]|null}
     */
    this.nths = null;
  }

  // ---- actions

  /**
   * An action in words.
   * @param {number} number
   * @returns {string}
   */
  action(number) {
    const action = this.actions.list[number];
    const [word, a, b, c] = action.words;
    switch (word) {
      case 'parse': return `the parser at ${this.element(b)}${this.isApart ? '' : this.inFile(this.names.elements[b]?.place)}`;
      case 'exec': return this.script(a);
      case 'timer': return this.timeout(this.names.timeouts[a]);
      case 'tick': case 'anim': return this.tick(a);
      case 'dcl': return `DOMContentLoaded${this.ofFrame(b)}`;
      case 'load': return `the load of the window${this.ofFrame(b)}`;
      case 'eload': return `the load of ${this.element(b)}`;
      case 'fire': case 'inline': return this.event(b, c);
      case 'wfire': return `the ${this.unescape(c)} at the window${this.ofFrame(b)}`;
      case 'reply': return this.reply(b);
      case 'message': return this.message(this.names.messages?.[a]);
      case 'run': return this.handler(action);
      case 'close': return `what the browser did behind ${this.dispatch(action)}`;
      case 'back': return this.action(action.first);
      default: return word;
    }
  }

  /**
   * An event at an element, in words.
   * @param {string} element
   * @param {string} type
   */
  event(element, type) {
    const { message } = this.names.elements[element] || {};
    if (type === 'then') return 'a promise reaction';
    return message ? this.message(this.names.messages?.[message]) : `the ${this.unescape(type)} at ${this.element(element)}`;
  }

  /**
   * A bound function has a name that begins with `bound`.
   * @param {{function?: string}|undefined} facts
   */
  named(facts) {
    const name = (facts?.function || '').replace(/^(?:bound )+/, '').trim();
    return name ? ` ${shown(name)}` : '';
  }

  /**
   * A timeout in words.
   * @param {{function?: string, place?: Place, way?: Place}|undefined} facts
   */
  timeout(facts) {
    return `the timeout${this.named(facts)} set${this.at(facts?.place, facts?.way)}`;
  }

  /**
   * A message in words.
   * @param {{place?: Place, way?: Place}|undefined} facts
   */
  message(facts) {
    return facts?.place ? `the message posted${this.at(facts.place, facts.way)}` : 'a message';
  }

  /**
   * The callback of an interval, or of what counts as one, in words.
   * @param {string} number
   */
  tick(number) {
    const facts = this.names.intervals[number] || {};
    if (!facts.why) return this.timeout({ ...this.names.timeouts[Number(number) - FIRST_FOREIGN_TIMEOUT], ...facts });
    const [what, asked] = INTERVALS[facts.why] || [`the callback of ${facts.why}`, ''];
    return `${what}${this.named(facts)}${asked}${this.at(facts.place, facts.way)}`;
  }

  /**
   * A request in words.
   * @param {string} number
   */
  request(number) {
    const { address } = this.names.requests[number] || {};
    return `the request${address ? ` for ${shown(address.replace(/^[^?#]*\/(?=[^/?#])/, ''))}` : ''}`;
  }

  /**
   * The reply to a request, in words. Called by replay/causes/files.js.
   * @param {string} number
   */
  reply(number) {
    const { place, way } = this.names.requests[number] || {};
    return `the reply to ${this.request(number)}${this.at(place, way)}`;
  }

  /**
   * The event that an action belongs to, in words.
   * @param {Action} action
   */
  dispatch(action) {
    return action.dispatch ? this.action(action.dispatch.number) : 'an event';
  }

  /**
   * A handler in words.
   * @param {Action} action
   */
  handler(action) {
    const facts = this.names.handlers[action.words[3]] || {};
    const name = this.named(facts);
    if (facts.isEmpty) return facts.type || ''; // it only orders another handler
    if (facts.type === 'reply of fetch') return this.reply(action.dispatch?.words[2] || '');
    if (facts.type === UNSEEN) return UNSEEN;
    if (facts.type === 'await') return `the code behind the await${this.at(facts.place)}`;
    if (facts.type === 'job') return `the promise reaction${name}${this.at(facts.place)}`;
    const place = facts.place || this.names.elements[facts.target ?? '']?.place;
    const request = action.dispatch?.words[0] === 'reply' ? ` of ${this.request(action.dispatch.words[2])}` : '';
    return `the ${shown(facts.type || 'event')} handler${name}${request}${this.at(place, facts.way)}`;
  }

  // ---- races

  /**
   * What an access does, for a text with "is" before it. A write of the value that was there counts as a read.
   * @param {string} kind
   * @param {string} mode
   * @param {number} line
   */
  verb(kind, mode, line) {
    if (kind === 'handler') return mode === 'w' ? 'set' : 'looked for';
    if (kind === 'element') return mode === 'w' ? 'added, changed or removed' : 'looked up';
    if (mode === 'r' && this.names.kept?.[line]) return 'set to the value that it had';
    return mode === 'w' ? 'written' : 'read';
  }

  /**
   * A race in words. Stable names contain them.
   * @param {Pick<import('./types').Race, 'lines'|'modes'|'actions'|'location'>} race
   */
  race({ lines, modes, actions, location }) {
    const { kind, text } = this.location(location);
    const what = kind === 'handler' ? `The handler "${text}"` : `"${text}"`;
    const actors = this.actors({ lines, modes, actions }, kind);
    const [first, second] = [0, 1].map((k) => `${this.verb(kind, modes[k], lines[k])} by ${actors[k]}`);
    return `${what} is ${first}, and ${second}; nothing orders them.`;
  }

  /**
   * Who makes the two accesses, told apart: by columns, functions and the places of elements if the words are the same, and by their numbers if one code
   * runs twice.
   * @param {Pick<import('./types').Race, 'lines'|'modes'|'actions'>} race
   * @param {string} kind
   */
  actors({ lines, modes, actions }, kind) {
    const tell = () => [0, 1].map((k) => this.actor(actions[k], lines[k], kind, modes[k]));
    const isAlike = () => this.action(actions[0]) === this.action(actions[1]);
    if (!isAlike()) return tell();
    return this.apart(isAlike) ? tell().map((words, k) => this.asNumbered(words, actions[k])) : this.apart(tell);
  }

  /**
   * Calls a function while everything that distinguishes two sides is in the words. Called by list/callbacks.js and list/sides.js.
   * @template T
   * @param {() => T} tell
   * @returns {T}
   */
  apart(tell) {
    this.isApart = true;
    try {
      return tell();
    } finally {
      this.isApart = false;
    }
  }

  /**
   * "the second run of the timeout set at page.html:3": which one an action is of the actions with the same words.
   * @param {string} words
   * @param {number} number
   * @returns {string}
   */
  asNumbered(words, number) {
    const own = this.actions.list[this.actions.list[number].first];
    const nth = ordinal(this.nthOf(own.number));
    const [word] = own.words;
    if (word === 'close' && own.dispatch) return `what the browser did behind ${this.asNumbered(this.dispatch(own), own.dispatch.number)}`;
    if (word === 'parse') return words.replace(/^the parser at (?:the )?/, `the parser at the ${nth} `);
    if (NO_RUN.has(word)) return words.replace(/^(?:(?:the|an?) )?/, `the ${nth} `);
    return `the ${nth} run of ${words}`;
  }

  /**
   * Which one an action is, from 0, of the actions with the same words, in the order of the trace. Called by list/sides.js.
   * @param {number} number
   */
  nthOf(number) {
    this.nths = this.nths || this.countActions();
    return this.nths[number];
  }

  /** By action: how many earlier ones have the same words, so that these can be told apart (`the second ..`). */
  countActions() {
    /** @type {number[]} */
    const nths = [];
    const counts = new Map();
    for (const { number, first } of this.actions.list) {
      if (number !== first) continue;
      const words = this.apart(() => this.action(number));
      nths[number] = counts.get(words) || 0;
      counts.set(words, nths[number] + 1);
    }
    return nths;
  }

  /**
   * The function of a place, as the end of a text about it.
   * @param {Place} place
   */
  inFunction(place) {
    const name = this.sources.functionAt(place);
    return name ? `, ${name}` : '';
  }

  /**
   * Who makes an access, with the place of the access if the words do not contain it.
   * @param {number} action
   * @param {number} line
   * @param {string} kind
   * @param {string} mode
   */
  actor(action, line, kind, mode) {
    const who = this.action(action);
    const at = this.placeOfLine(line);
    const place = this.place(at);
    const isLookUp = kind === 'handler' && mode === 'r';
    const isTold = who.split(/[^\w.:$-]+/).includes(place);
    return at && !isLookUp && !isTold ? `${who} (in ${place}${this.isApart ? this.inFunction(at) : ''})` : who;
  }
}

/** @type {{[digit: string]: string}} */
const ENDINGS = { 1: 'st', 2: 'nd', 3: 'rd' };

/**
 * The word for an index: "third", and from the eleventh on "11th".
 * @param {number} index
 */
function ordinal(index) {
  if (index < ORDINALS.length) return ORDINALS[index];
  const number = String(index + 1);
  const ending = (/1\d$/.test(number) ? '' : ENDINGS[number.slice(-1)]) || 'th';
  return number + ending;
}

module.exports = { Words, UNSEEN };
