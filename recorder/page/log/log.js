// The log: lines of the trace, each with the place of the code that caused it, sent to the driver in batches. A batch is sent (flushed) when it has enough
// lines, or after some milliseconds.

import { JSON, Map, Object, String, apply } from '../core/taken.js';
import { wayOf } from './stack.js';

/**
 * A batch is sent when it has so many lines, or is so many milliseconds old: a message for each line would be slow. Further stacks are not compared with
 * earlier ones.
 */
const LINES_A_BATCH = 200;
const MILLISECONDS_A_BATCH = 100;
const MOST_STACKS = 20000;

const { indexOf } = String.prototype;
/** @type {(text: string, part: string) => boolean} */
const has = (text, part) => apply(indexOf, text, [part]) >= 0;

/**
 * A page never gets hold of a log. What it passes to a helper can be in a line, but makes no other line, and no other part of it. Made by
 * page/recording/lines.js, as its `log`.
 */
class Log {
  /** Passes lines and counts to the driver (main.js). */
  #send;
  /** The lines that have not been sent, each with a line break, and how many there are. */
  #text = '';
  #lines = 0;
  #lastSent = 0;
  #isSendingSoon = false;
  /** @type {{[what: string]: number}} */
  #counts = Object.create(null);
  #lastStack = 0;
  /**
   * The numbers of the stacks that are in the log.
   * @type {Map<string, number>}
   */
  #stacks = new Map();
  /**
   * If it is set, as in a replay (recording/steering.js), each line is sent after the task that wrote it.
   * @type {((send: () => void) => void)|null}
   */
  sendSoon = null;
  /** Writes what is still to be written after a task. */
  beforeSending = () => {};

  /** @param {import('../types').Send} send */
  constructor(send) {
    this.#send = send;
  }

  /**
   * Writes a line of the trace. Called by `Lines` (recording/lines.js).
   * @param {string} text
   * @param {import('../types').Place} place
   * @param {string} found what an access found (values.js)
   * @param {number} stack the number of the stack of what code requests
   */
  line(text, place = '', found = '', stack = 0) {
    const isPlace = typeof place === 'number' || (typeof place === 'string' && !has(place, '\t'));
    const rest = stack ? `\t${place}\t${found}\t${stack}` : found ? `\t${place}\t${found}` : place === '' ? '' : `\t${place}`;
    const line = `${text}${rest}`;
    if (!isPlace || has(text, '\t') || has(line, '\n')) this.miss('lines of the log in an unknown form, left out');
    else this.#add(line);
  }

  /**
   * Adds a line to the batch.
   * @param {string} line
   */
  #add(line) {
    this.#text += `${line}\n`;
    this.#lines++;
    if (this.sendSoon) this.#askToSend(this.sendSoon);
  }

  /**
   * The number of a stack of several places of the page's code; 0 if there is only one. Called by page/recording/recording.js.
   * @param {import('../types').CallSite[]} calls
   */
  numberOfStack(calls) {
    return this.numberOfPlace(wayOf(calls));
  }

  /**
   * The number of a stack as a text; 0 of an empty one. Called by page/objects/callers.js.
   * @param {string} way
   */
  numberOfPlace(way) {
    if (!way) return 0;
    let number = this.#stacks.get(way);
    if (number === undefined) {
      number = ++this.#lastStack;
      if (this.#stacks.size < MOST_STACKS) this.#stacks.set(way, number);
      this.name('stack', number, { places: way });
    }
    return number;
  }

  /**
   * Writes what a number is, for OUT.names.json.
   * @param {string} kind
   * @param {number} number
   * @param {import('../types').Facts} facts
   */
  name(kind, number, facts) {
    this.#add(`#${this.#json({ kind, number, ...facts })}`);
  }

  /**
   * Counts something that was not recorded.
   * @param {string} what
   */
  miss(what) {
    this.#counts[what] = (this.#counts[what] || 0) + 1;
  }

  /**
   * Some pages give all objects a `toJSON` of their own.
   * @param {import('../types').Facts} facts
   */
  #json(facts) {
    return JSON.stringify({ ...facts, toJSON: undefined });
  }

  /**
   * Requests one sending for all lines that come until then.
   * @param {(send: () => void) => void} sendSoon
   */
  #askToSend(sendSoon) {
    if (this.#isSendingSoon) return;
    this.#isSendingSoon = true;
    sendSoon(() => {
      this.beforeSending();
      this.#isSendingSoon = false;
      if (this.#lines) this.sendAll(this.#lastSent);
    });
  }

  /**
   * Sends what was written, if it is much or some time has gone. Called as a task starts. Called by page/recording/recording.js.
   * @param {number} now milliseconds
   */
  sendIfDue(now) {
    const isDue = this.#lines > LINES_A_BATCH || now - this.#lastSent > MILLISECONDS_A_BATCH;
    if (isDue && this.#lines) this.sendAll(now);
  }

  /**
   * Sends all lines that were written, with the counts of what was missed. Called by page/recording/recording.js.
   * @param {number} now milliseconds
   */
  sendAll(now) {
    const send = this.#send;
    const text = `${this.#text}!${this.#json(this.#counts)}`;
    this.#text = '';
    this.#lines = 0;
    this.#lastSent = now;
    send(text);
  }
}

const MADE_OF_TEXT = 'code that is made of a text (eval, Function, a timer\'s text, an inserted script), without what it reads';

export { Log, MADE_OF_TEXT };
