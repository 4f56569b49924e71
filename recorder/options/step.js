'use strict';
// The steps of --do, as `click:SELECTOR`: read and checked before anything is recorded. A wrong step is a UsageFault, which prints all forms.

const { UsageFault } = require('./parse.js');
const { whereOf } = require('./selector.js');

/** @typedef {import('../browser/input/selectors.js').Where} Where */
/** @typedef {'click'|'type'|'key'|'wait'|'hover'|'select'|'upload'|'press'} DoneKind what --do takes */
/** @typedef {'doubleClick'|'change'|'keyDown'|'keyUp'|'scroll'|'waitForElement'|'waitForExpression'|'navigate'|'setViewport'} FlowKind what only flows have */
/**
 * What a user does. `target` is a selector as given, a key, milliseconds, an expression or an address; `where` says how its element is found. `text` is what
 * is typed, pressed or chosen, or a file; `said` the step as messages have it. Of a step of a flow, `from` is how messages name it, `given` the step there.
 * @typedef {{isEarly: boolean, kind: DoneKind|FlowKind, target: string, text: string, said: string, where?: Where, from?: string,
 *   given?: import('./flow.js').FlowStep}} Step
 */

const STEP = /^(early )?(click|type|key|wait|hover|select|upload|press):([^]+)$/;
/** A selector in quotes, so that it, and the text after it, can contain colons. No selector starts with a quote. */
const QUOTED = /^(["'])([^]+?)\1(?::([^]*))?$/;
const FORMS = 'click:SELECTOR, hover:SELECTOR, type:SELECTOR:TEXT, select:SELECTOR:OPTION, upload:SELECTOR:FILE, press:SELECTOR:KEY, key:KEY or wait:MS';
/** Steps whose selector is followed by a text. */
const WITH_TEXT = new Set(['type', 'select', 'upload', 'press']);

/**
 * The selector and the text of `type:` and others. Without quotes the text starts after the last colon.
 * @param {string} rest
 * @returns {{target: string, text: string}|null}
 */
function withText(rest) {
  const quoted = QUOTED.exec(rest);
  if (quoted) return quoted[3] === undefined ? null : { target: quoted[2], text: quoted[3] };
  const cut = rest.lastIndexOf(':');
  return cut < 1 ? null : { target: rest.slice(0, cut), text: rest.slice(cut + 1) };
}

/**
 * What follows the kind of a step: a selector and a text, milliseconds, a key, or a selector in quotes; null if it is none.
 * @param {Step['kind']} kind
 * @param {string} rest
 */
function targetOf(kind, rest) {
  if (WITH_TEXT.has(kind)) return withText(rest);
  if (kind === 'wait') return /^\d{1,9}$/.test(rest) ? { target: rest, text: '' } : null;
  const quoted = kind === 'key' ? null : QUOTED.exec(rest);
  return { target: quoted && quoted[3] === undefined ? quoted[2] : rest, text: '' };
}

/**
 * How the element of a step is found; of a key and a wait there is none. A selector that cannot be right is reported before anything is recorded.
 * @param {string} name of the option
 * @param {Step['kind']} kind
 * @param {string} target
 * @returns {{where?: Where}}
 */
function placeOf(name, kind, target) {
  if (kind === 'key' || kind === 'wait') return {};
  try {
    return { where: whereOf(target) };
  } catch (fault) {
    throw new UsageFault(`${name}: ${/** @type {Error} */ (fault).message}: ${target}`);
  }
}

/**
 * Reads one step. Throws a UsageFault with all forms if it has none of them.
 * Called by recording/options.js.
 * @param {string} name of the option
 * @param {string} said
 * @returns {Step}
 */
function parseStep(name, said) {
  const [, early, word, rest] = STEP.exec(said) || [];
  const kind = /** @type {DoneKind|undefined} */ (word);
  const found = kind && targetOf(kind, rest);
  if (!found) throw new UsageFault(`${name} takes ${FORMS}: ${said}`);
  return { isEarly: !!early, kind, ...found, ...placeOf(name, kind, found.target), said };
}

module.exports = { parseStep };
