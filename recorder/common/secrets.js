'use strict';
// What no file and no output has: the values of cookies and headers, passwords, tokens in addresses, and what --redact names (which arguments have them:
// options/secrets-of.js). Each becomes the same word in every run, so that names stay comparable. They are redacted: masked in traces, names, reports and error
// messages.

const { HIDDEN, withoutCredentials, withoutTokens } = require('./address.js');

/** A shorter value is in any text by chance. */
const SHORTEST = 4;
/** The same for values that the user did not name as secret, as those of cookies that a server sets. */
const SHORTEST_FOUND = 8;
const LITERAL = /^(?:true|false|null|undefined)$/;

/** @type {Set<string>} */
const values = new Set();
/** @type {RegExp[]} */
const patterns = [];
/** @type {RegExp|null} of all values, the longest ones first */
let ofValues = null;

/** @param {string} text */
const escaped = (text) => text.replace(/[.*+?^${}()|[\]\\/-]/g, '\\$&');

/**
 * Takes note of a secret, as it is and as addresses and JSON write it. Called by browser/tab.js, browser/user-steps.js and options/secrets-of.js.
 * @param {string} value
 * @param {number} [shortest]
 */
function keepSecret(value, shortest = SHORTEST) {
  if (value.length < shortest || LITERAL.test(value)) return;
  for (const form of [value, encodeURIComponent(value), JSON.stringify(value).slice(1, -1)]) values.add(form);
  ofValues = new RegExp([...values].sort((a, b) => b.length - a.length).map(escaped).join('|'), 'g');
}

/**
 * Takes note of the value of a header: also of its last word, as of `Bearer WORD`, and of each cookie. Called by options/secrets-of.js.
 * @param {[name: string, value: string]} header
 */
function keepHeader([name, value]) {
  keepSecret(value);
  if (/^(?:proxy-)?authorization$/i.test(name)) keepSecret(value.split(' ').pop() || '');
  if (/^cookie$/i.test(name)) value.split(/;\s*/).forEach((one) => keepSecret(one.slice(one.indexOf('=') + 1)));
}

/**
 * A password is a secret as it is, and as the header `Authorization` has it.
 * Called by options/secrets-of.js.
 * @param {{user: string, password: string}} credentials
 */
function keepCredentials({ user, password }) {
  keepSecret(password);
  keepSecret(Buffer.from(`${user}:${password}`).toString('base64'));
}

/**
 * Called by recording/options.js.
 * @param {RegExp} pattern global
 */
const keepPattern = (pattern) => { patterns.push(pattern); };

/**
 * A text without secrets. Called by page-races.js.
 * @param {string} text
 */
function redacted(text) {
  const known = ofValues ? text.replace(ofValues, HIDDEN) : text;
  return patterns.reduce((given, pattern) => given.replace(pattern, HIDDEN), withoutTokens(known));
}

/**
 * For `JSON.stringify`: the texts of an object without secrets; its members keep their names. Called by replay-results.js, suite-replays.js and trace/names.js.
 * @param {string} key
 * @param {unknown} value
 */
const redactedValue = (key, value) => (typeof value === 'string' ? redacted(value) : value);

/**
 * The lines of a trace without secrets: keywords and numbers stay. Called by recording/files.js.
 * @param {string} text
 */
function redactedTrace(text) {
  if (!ofValues && !patterns.length && !text.includes('?')) return text;
  /** @param {string} word */
  const redactedWord = (word) => (/^\d+$/.test(word) ? word : redacted(word));
  return text.split('\n').map((line) => {
    const [keyword, ...words] = line.split(' ');
    return [keyword, ...words.map(redactedWord)].join(' ');
  }).join('\n');
}

/**
 * An object without secrets. Called by replay-results.js and suite-replays.js.
 * @template T
 * @param {T} given
 * @returns {T}
 */
const redactedObject = (given) => JSON.parse(JSON.stringify(given, redactedValue));

/**
 * Leaves secrets out of all that a stream gets. Called by command.js.
 * @param {NodeJS.WriteStream} stream
 */
function redactStream(stream) {
  const write = stream.write.bind(stream);
  stream.write = /** @type {typeof stream.write} */ ((/** @type {unknown} */ chunk, /** @type {any[]} */ ...rest) => ( // as the stream takes them
    write(typeof chunk === 'string' ? withoutCredentialsIn(redacted(chunk)) : /** @type {Uint8Array} */ (chunk), ...rest)));
}

/** @param {string} text */
const withoutCredentialsIn = (text) => text.replace(/\bhttps?:\/\/[^\s"'<>\\]+/g, withoutCredentials);

module.exports = { keepSecret, keepHeader, keepCredentials, keepPattern, redacted, redactedValue, redactedTrace, redactedObject, redactStream, SHORTEST_FOUND };
