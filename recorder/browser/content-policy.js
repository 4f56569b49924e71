'use strict';
// Content policies of a page. Its copy keeps them: what a policy allows by the hash of its text is allowed in its instrumented form too. What a policy
// (Content-Security-Policy, CSP) blocks stays blocked.

const { createHash } = require('node:crypto');

/** The name of what a replay puts into a page, so that the page waits for it. */
const HOLD_NAME = '__er-hold';

/**
 * @typedef {{address: string, nonce: string, isInline?: boolean}} Hold what a replay puts into a page, by what a policy allows it: `isInline` has its code in
 *   the page
 * @typedef {Iterable<[own: string, marked: string]>} Texts scripts and handler attributes, as they are and instrumented
 */

/**
 * Called by browser/responses/copies.js and instrument/page.js.
 * @param {string} address
 * @returns {Hold}
 */
const holdAt = (address, isInline = false) => ({ address: new URL(`/${HOLD_NAME}`, address).href, nonce: HOLD_NAME, isInline });

/** The directives that decide which scripts run. */
const OF_SCRIPTS = /^(script-src(-elem|-attr)?|default-src)$/;
/** What a replay puts into a page is a script, or an image. */
const OF_HOLDS = /^(script-src(-elem)?|img-src|default-src)$/;
/** They would refuse what is inserted into handler attributes that a script sets. */
const OF_TYPES = /^(trusted-types|require-trusted-types-for)$/;
const OF_INTEGRITY = /^integrity-policy(-report-only)?$/i;
const HASH = /^'(sha(?:256|384|512))-([\w+/-]+=*)'$/i;
/** A source list with one of these ignores addresses, or `'unsafe-inline'`. */
const STRICT = /^'(nonce-|sha(256|384|512)-|strict-dynamic)/i;

/** @param {string} hash */
const inPlainBase64 = (hash) => hash.replace(/-/g, '+').replace(/_/g, '/');

/**
 * The hash of a text as the browser reads it.
 * @param {string} text
 * @param {string} algorithm
 */
const hashOf = (text, algorithm) => createHash(algorithm).update(text.replace(/\r\n?/g, '\n')).digest('base64');

/**
 * The hashes by which a source list allows the instrumented forms of texts that it allows.
 * @param {string[]} sources
 * @param {Texts} texts
 */
function hashesOfMarked(sources, texts) {
  /** @type {string[]} */
  const found = [];
  for (const source of sources) {
    const [, algorithm, hash] = HASH.exec(source) || [];
    if (!algorithm || !hash) continue;
    const name = algorithm.toLowerCase();
    for (const [own, marked] of texts) if (hashOf(own, name) === inPlainBase64(hash)) found.push(`'${name}-${hashOf(marked, name)}'`);
  }
  return found;
}

/**
 * The sources that allow what a replay puts into the page.
 * @param {string} name
 * @param {string[]} sources
 * @param {Hold} hold
 */
function holdSources(name, sources, { address, nonce, isInline }) {
  if (!OF_HOLDS.test(name)) return [];
  const isStrict = sources.some((source) => STRICT.test(source));
  if (isInline) return name === 'img-src' || (sources.includes("'unsafe-inline'") && !isStrict) ? [] : [`'nonce-${nonce}'`];
  return name !== 'img-src' && isStrict ? [`'nonce-${nonce}'`, address] : [address];
}

/**
 * A directive that also allows what the recorder changed or inserted: the copies of inline scripts by their hashes, and what a replay holds the page with.
 * @param {string} directive
 * @param {Texts} texts
 * @param {Hold|null} hold
 */
function directiveWithMarks(directive, texts, hold) {
  const [name = '', ...sources] = directive.trim().split(/\s+/);
  const added = [
    ...(OF_SCRIPTS.test(name.toLowerCase()) ? hashesOfMarked(sources, texts) : []),
    ...(hold ? holdSources(name.toLowerCase(), sources, hold) : []),
  ];
  if (!added.length) return directive;
  return ` ${[name, ...sources.filter((source) => !/^'none'$/i.test(source)), ...added].join(' ')}`;
}

/** @param {string} directive */
const isOfTypes = (directive) => OF_TYPES.test(directive.trim().split(/\s/)[0].toLowerCase());

/**
 * A header or an attribute with content policies, for the instrumented copy of a page. Called by browser/responses/copies.js and instrument/page.js.
 * @param {string} policies
 * @param {Texts} texts
 * @param {Hold|null} hold
 */
function policyWithMarks(policies, texts, hold = null) {
  const withMarks = (/** @type {string} */ policy) => policy.split(';').filter((one) => !isOfTypes(one)).map((one) => directiveWithMarks(one, texts, hold)).join(';');
  return policies.split(',').map(withMarks).join(',');
}

/**
 * Called by browser/responses/copies.js and instrument/page.js.
 * @param {string} policies
 */
const hasTypes = (policies) => policies.split(/[,;]/).some(isOfTypes);

/**
 * Whether a header demands `integrity` of scripts. Called by browser/responses/copies.js.
 * @param {string} name
 */
const isOfIntegrity = (name) => OF_INTEGRITY.test(name);

module.exports = { policyWithMarks, hasTypes, isOfIntegrity, holdAt, HOLD_NAME };
