'use strict';
// Selectors of --do in Playwright's spelling, and of flows in that of Chrome DevTools' Recorder panel: how an element is found. `text=..`,
// `role=button[name=".."]`, `xpath=..`, CSS.

/**
 * @typedef {import('../browser/input/selectors.js').Part} Part
 * @typedef {import('../browser/input/selectors.js').Where} Where
 */

/** Between parts; inside of quotes and brackets it is a part of a selector. */
const NEXT = /\s+>>>?>?\s+/;
const ROLE = /^([a-z]*)((?:\[.*\])?)$/s;
const NAME = /^\[\s*name\s*(\*?=)\s*(?:"((?:[^"\\]|\\.)*)"|'((?:[^'\\]|\\.)*)')\s*([is]?)\s*\]$/s;
const NAME_PATTERN = /^\[\s*name\s*=\s*\/((?:[^/\\]|\\.)+)\/(i?)\s*\]$/s;
const WHOLE_TEXT = /^(?:"([^]*)"|'([^]*)')$/;
const TEXT_PATTERN = /^\/([^]+)\/(i?)$/;
const ROLE_FORM = 'role=ROLE or role=ROLE[name="NAME"]';

/**
 * A regular expression with its flags as one text.
 * @param {string} source
 * @param {string} flags
 */
function patternOf(source, flags) {
  new RegExp(source, flags); // throws why it is none
  return `/${source}/${flags}`;
}

/**
 * A part by visible text: "in quotes" is the whole text, /pattern/ a pattern, else a part of it.
 * @param {string} value
 * @returns {Part}
 */
function textPart(value) {
  const whole = WHOLE_TEXT.exec(value);
  if (whole) return { by: 'text', value: whole[1] ?? whole[2], fit: 'all' };
  const pattern = TEXT_PATTERN.exec(value);
  if (pattern) return { by: 'text', value: patternOf(pattern[1], pattern[2]), fit: 'pattern' };
  return { by: 'text', value, fit: 'part' };
}

/**
 * The selector of a role and an accessible name, as `button[name="Buy"]`.
 * @param {string} value
 * @returns {Part}
 */
function rolePart(value) {
  const [, role, rest] = ROLE.exec(value) || [];
  if (!role) throw new Error(`a role is written ${ROLE_FORM}`);
  if (!rest) return { by: 'role', value: role, name: null, fit: 'all' };
  const pattern = NAME_PATTERN.exec(rest);
  if (pattern) return { by: 'role', value: role, name: patternOf(pattern[1], pattern[2]), fit: 'pattern' };
  const found = NAME.exec(rest);
  if (!found) throw new Error(`a role is written ${ROLE_FORM}`);
  const [, operator, double, single, flag] = found;
  const name = (double ?? single).replace(/\\(.)/gs, '$1');
  return { by: 'role', value: role, name, fit: operator === '*=' ? 'part' : flag === 'i' ? 'same' : 'all' };
}

/**
 * One part of a selector: by its engine (`text=..`), or by its look, as `//` of XPath; else CSS.
 * @param {string} said
 * @returns {Part}
 */
function partOf(said) {
  const [, engine, rest] = /^(css|text|role|xpath)=([^]*)$/.exec(said) || [];
  if (engine === 'text') return textPart(rest);
  if (engine === 'role') return rolePart(rest);
  if (engine === 'xpath' || /^\(*\/\//.test(said)) return { by: 'xpath', value: rest ?? said };
  return { by: 'css', value: rest ?? said };
}

/**
 * The parts of a selector, which `>>` or `>>>` separates.
 * @param {string} said
 */
function partsOf(said) {
  /** @type {string[]} */
  const parts = [];
  let open = '';
  let rest = '';
  for (const piece of said.split(/(\s+>>>?>?\s+|["'[\]])/)) {
    if (NEXT.test(piece) && !open) {
      parts.push(rest);
      rest = '';
      continue;
    }
    if (piece === open || (open === '[' && piece === ']')) open = '';
    else if (!open && /^["'[]$/.test(piece)) open = piece;
    rest += piece;
  }
  return [...parts, rest].map((one) => one.trim());
}

/**
 * Where an element is, as --do names it. Throws why the selector is none. Called by step.js.
 * @param {string} said
 * @returns {Where}
 */
function whereOf(said) {
  const parts = partsOf(said).map(partOf);
  if (parts.some(({ value }) => !value)) throw new Error('a part of the selector is empty');
  return { selectors: [parts], frame: [] };
}

// ---- of the Recorder panel

/**
 * One part of a selector as the browser's recorder of user flows writes it (`aria/Name[role="button"]`, `text/..`, `xpath/..`, `pierce/..`, else CSS).
 * @param {string} said
 * @returns {Part}
 */
function recordedPart(said) {
  const [, engine, rest] = /^(aria|text|xpath|pierce)\/([^]*)$/.exec(said) || [];
  if (engine === 'xpath') return { by: 'xpath', value: rest };
  if (engine === 'pierce') return { by: 'deep', value: rest };
  if (engine === 'text') return { by: 'text', value: rest, fit: 'has' };
  if (engine !== 'aria') return { by: 'css', value: said };
  const [, name, role = ''] = /^([^]*?)(?:\s*\[\s*role\s*=\s*["']([^"']*)["']\s*\])?$/.exec(rest) || ['', rest];
  return { by: 'role', value: role, name, fit: 'all' };
}

/**
 * The alternatives of a step. One of several parts leads through shadow roots. Throws why they are none. Called by flow.js.
 * @param {unknown} given
 * @param {unknown} frame
 * @returns {Where}
 */
function recordedWhere(given, frame) {
  const alternatives = (Array.isArray(given) ? given : []).map((one) => (Array.isArray(one) ? one : [one]));
  const isText = (/** @type {unknown} */ one) => typeof one === 'string' && one !== '';
  if (!alternatives.length || !alternatives.every((parts) => parts.length && parts.every(isText))) throw new Error('it has no selectors');
  const frames = Array.isArray(frame) ? frame : [];
  if (!frames.every(Number.isInteger)) throw new Error('its frame is no list of numbers');
  return { selectors: alternatives.map((parts) => parts.map(recordedPart)), frame: frames };
}

module.exports = { whereOf, recordedWhere };
