'use strict';
// What differs between the ends of two runs. A user or an author can notice a difference that `isSeen`, unlike that of variables or of how often an address
// was requested. Errors, errors on the console, dialogs, texts and elements (DOM), values, requests, events, handlers.

/** @typedef {import('../../races/keys.js').Keys} Keys */
/** @typedef {import('../types').Difference} Difference */
/** @typedef {import('./end-state.js').End} End */
/** @typedef {{end: End, keys: Keys}} Comparing a run, as far as it is compared */
/** @typedef {{key: string, words: string, isOfUser: boolean, handlers: {key: string, words: string}[]}} Dispatch an event, and the handlers that ran in it */
/** @typedef {'errors'|'consoleErrors'|'dialogs'|'lines'|'ids'} List a member of an end that is a list */

const MOST_SHOWN = 4;
const LONGEST_SHOWN = 120;

const cut = (/** @type {unknown} */ text) => (String(text).length > LONGEST_SHOWN ? `${String(text).slice(0, LONGEST_SHOWN)}…` : String(text));

/**
 * The items that a list contains more often than another list.
 * @param {string[]} list
 * @param {string[]} other
 */
function more(list, other) {
  /** @type {Map<string, number>} */
  const left = new Map();
  other.forEach((item) => left.set(item, (left.get(item) || 0) + 1));
  return list.filter((item) => {
    const count = left.get(item) || 0;
    if (count) left.set(item, count - 1);
    return !count;
  });
}

/**
 * The events of a run by their keys, with the handlers that ran in them. Of several events with one key the number is after it.
 * @param {Keys} keys
 */
function dispatchesOf(keys) {
  /** @type {Map<string, Dispatch>} */
  const ran = new Map();
  const byNumber = new Map();
  const counts = new Map();
  for (const action of keys.actions.list) {
    const [word, dispatch, , type] = action.words;
    if (/^(fire|wfire|inline|eload|dcl|load)$/.test(word) && !(word === 'inline' && type === 'then')) {
      const key = keys.action(action.number);
      const count = (counts.get(key) || 0) + 1;
      counts.set(key, count);
      const one = { key: `${key} #${count}`, words: keys.words.action(action.number), isOfUser: keys.actOf(action) > 0, handlers: [] };
      byNumber.set(dispatch, one);
      ran.set(one.key, one);
    } else if (word === 'run' && !keys.names.handlers[type]?.isEmpty) { // an empty handler only orders
      byNumber.get(dispatch)?.handlers.push({ key: keys.handler(type), words: keys.words.action(action.number) });
    }
  }
  return ran;
}

/**
 * Whether the user put something into a field.
 * @param {Keys} keys
 */
const hasTyped = (keys) => keys.actions.list.some((action) => {
  const [word, , , type] = action.words;
  return (word === 'fire' || word === 'inline') && (type === 'input' || type === 'change') && keys.actOf(action) > 0;
});

class Comparison {
  /**
   * @param {Comparing} recorded
   * @param {Comparing} other
   */
  constructor(recorded, other) {
    this.recorded = recorded;
    this.other = other;
    this.a = recorded.end;
    this.b = other.end;
    /** @type {Difference[]} */
    this.differences = [];
  }

  /** All differences. */
  all() {
    this.lists('error', 'errors');
    this.lists('console error', 'consoleErrors');
    this.lists('dialog', 'dialogs');
    this.events();
    this.lists('text', 'lines');
    this.order();
    this.lists('element', 'ids', (id) => `#${id}`);
    this.values('field', 'fields', { isOfUser: hasTyped(this.recorded.keys) });
    this.values('storage', 'storage');
    this.one('title', 'title', this.a.title, this.b.title);
    this.one('hash', 'hash', this.a.hash, this.b.hash);
    this.one('focus', 'focus', this.a.focus, this.b.focus);
    this.one('load', 'the load of the window', ...this.sides(({ isLoaded }) => (isLoaded ? 'came' : 'did not come')));
    this.requests();
    this.values('variable', 'variables', { isSeen: false });
    return this.differences;
  }

  /**
   * What is shown of both ends.
   * @param {(end: End) => string} show
   * @returns {[recorded: string, other: string]}
   */
  sides(show) {
    return [show(this.a), show(this.b)];
  }

  /**
   * Adds a difference.
   * @param {string} kind
   * @param {string} subject
   * @param {string} recorded
   * @param {string} other
   * @param {{isSeen?: boolean, isOfUser?: boolean}} facts
   */
  add(kind, subject, recorded, other, facts = {}) {
    this.differences.push({ kind, subject, isSeen: true, recorded: cut(recorded), other: cut(other), ...facts });
  }

  /**
   * Adds a difference, if the two sides differ.
   * @param {string} kind
   * @param {string} subject
   * @param {string} recorded
   * @param {string} other
   * @param {{isSeen?: boolean, isOfUser?: boolean}} [facts]
   */
  one(kind, subject, recorded, other, facts) {
    if (recorded !== other) this.add(kind, subject, recorded, other, facts);
  }

  /**
   * @param {string} kind
   * @param {List} name
   */
  lists(kind, name, show = (/** @type {string} */ item) => item) {
    more(this.a[name], this.b[name]).forEach((item) => this.add(kind, show(item), show(item), 'none'));
    more(this.b[name], this.a[name]).forEach((item) => this.add(kind, show(item), 'none', show(item)));
  }

  /** Adds a difference if both ends have the same lines in another order. */
  order() {
    const [a, b] = [this.a.lines, this.b.lines];
    const at = a.findIndex((line, k) => line !== b[k]);
    if (at >= 0 && a.length === b.length && !more(a, b).length) this.add('order of lines', 'the order of the lines', a[at], b[at]);
  }

  /**
   * Adds the differences of two tables of names and values.
   * @param {string} kind
   * @param {'fields'|'storage'|'variables'} name
   * @param {{isSeen?: boolean, isOfUser?: boolean}} [facts]
   */
  values(kind, name, facts) {
    const names = new Set([...Object.keys(this.a[name]), ...Object.keys(this.b[name])]);
    for (const one of names) this.one(kind, one, this.a[name][one] ?? 'none', this.b[name][one] ?? 'none', facts);
  }

  /** The addresses that only one run requested, and how often each was requested. */
  requests() {
    const [a, b] = [new Set(this.a.requests), new Set(this.b.requests)];
    [...a].filter((one) => !b.has(one)).forEach((one) => this.add('request', one, 'made', 'not made'));
    [...b].filter((one) => !a.has(one)).forEach((one) => this.add('request', one, 'not made', 'made'));
    for (const one of a) {
      if (b.has(one)) this.one('requests', one, ...this.sides(({ requests }) => `${requests.filter((each) => each === one).length} times`), { isSeen: false });
    }
  }

  /** The handlers that ran in only one of the two runs, in an event of both. */
  events() {
    const [a, b] = [dispatchesOf(this.recorded.keys), dispatchesOf(this.other.keys)];
    for (const [key, one] of a) {
      const other = b.get(key);
      if (!other) continue;
      this.handlers(one, other, (words) => [words, 'not run']);
      this.handlers(other, one, (words) => ['not run', words]);
    }
  }

  /**
   * Adds the handlers that only one run has in an event of both.
   * @param {Dispatch} one
   * @param {Dispatch} other
   * @param {(words: string) => [recorded: string, other: string]} sides
   */
  handlers(one, other, sides) {
    const missing = more(one.handlers.map(({ key }) => key), other.handlers.map(({ key }) => key));
    for (const key of missing) {
      const words = one.handlers.find((handler) => handler.key === key)?.words || '';
      this.add('event', `${one.words}: ${words}`, ...sides(words), { isOfUser: one.isOfUser });
    }
  }
}

/**
 * The differences between two runs. Called by differences.js and suite-loads.js.
 * @param {Comparing} recorded
 * @param {Comparing} other
 */
const compare = (recorded, other) => new Comparison(recorded, other).all();

// ---- in words

/** @typedef {[recorded: string, other: string]} Sides the names of the two runs */

/** @type {(what: string, difference: Difference, sides: Sides) => string} */
const inOne = (what, { recorded }, [first, second]) => `${what} in ${recorded === 'none' ? second : first} alone: `;

/** @type {{[kind: string]: (difference: Difference, sides: Sides) => string}} */
const WORDS = {
  error: (one, sides) => `${inOne('error', one, sides)}${one.subject}`,
  'console error': (one, sides) => `${inOne('console error', one, sides)}${one.subject}`,
  dialog: (one, sides) => `${inOne('dialog', one, sides)}${one.subject}`,
  event: ({ subject, recorded }, [first, second]) => `lost event in ${recorded === 'not run' ? first : second}: ${subject} has not run`,
  text: (one, sides) => `${inOne('text', one, sides)}"${one.subject}"`,
  element: (one, sides) => `${inOne('element', one, sides)}${one.subject}`,
  picture: ({ other }) => `the picture: ${other}`,
  request: ({ subject, recorded }, [first, second]) => `request in ${recorded === 'made' ? first : second} alone: ${subject.replace(/https?:\/\/\S*\/(?=[^/]+$)/, '')}`,
};

/**
 * A difference in one line, as the view and the list have it.
 * @param {Difference} difference
 * @param {Sides} sides
 */
function inWords(difference, sides) {
  const words = WORDS[difference.kind];
  return cut(words ? words(difference, sides) : `${difference.subject}: ${difference.recorded} in ${sides[0]}, ${difference.other} in ${sides[1]}`);
}

/**
 * The first differences in words; those with the same words are one. Called by replay/verdict.js.
 * @param {Difference[]} differences
 * @param {Sides} sides
 */
function someInWords(differences, sides) {
  const counts = new Map();
  differences.map((one) => inWords(one, sides)).forEach((words) => counts.set(words, (counts.get(words) || 0) + 1));
  const lines = [...counts].map(([words, count]) => (count > 1 ? `${words} (${count} times)` : words));
  return lines.length > MOST_SHOWN ? [...lines.slice(0, MOST_SHOWN), `and ${lines.length - MOST_SHOWN} more`] : lines;
}

module.exports = { compare, inWords, someInWords };
