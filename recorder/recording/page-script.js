'use strict';
// The recorder's script for the browser: the modules of page/ in one text, and the settings of a recording. The browser injects it into each document (also of
// frames: iframes) before any script of the page (an init script).

const { randomUUID } = require('node:crypto');
const path = require('node:path');
const { HANDLER_NAMES } = require('../common/handler-names.js');
const { codeOfAddress, scriptType } = require('../common/html.js');
const { foreignness } = require('../common/library.js');
const { FIRST_FIELD, FIRST_OBJECT } = require('../common/numbers.js');
const { withoutBlanks } = require('./blanks.js');
const { bundled } = require('./bundle.js');
const { MARKS, textWithoutMarks } = require('../instrument/marks/delimiters.js');
const { ANSWERS, WITHOUT_ANSWER } = require('../instrument/marks/helpers.js');

const MAIN = path.join(__dirname, '..', 'page', 'main.js');
/** The address of the script in the browser's stacks. */
const SCRIPT_NAME = '__er-recorder';

/**
 * The names that only the recorder knows, of one recording: that of its binding, through which the page's half sends its lines, and the secret for which
 * the page's half gives its recording to the driver. Called by driven/browser-recorder.js and session.js.
 * @returns {import('../page/types').OwnNames}
 */
function ownNames() {
  return { binding: `__er${randomUUID().replaceAll('-', '')}`, secret: randomUUID() };
}

/**
 * An expression for the page: what `use` does with the recording there; a value that counts as false if the page is not recorded.
 * @param {import('../page/types').OwnNames} names
 * @param {string} use `.flush()`
 */
function ofRecording({ secret }, use) {
  return `typeof __er === 'object' && __er.recording && __er.recording('${secret}')${use}`;
}

/** @param {string} sign */
const escaped = (sign) => `\\u${sign.charCodeAt(0).toString(16).padStart(4, '0')}`;

/**
 * A value as code: JSON, a regular expression or a function. One sign that is not of Latin-1 would double what the whole script takes in the browser.
 * @param {unknown} value
 */
function codeOf(value) {
  if (typeof value === 'function') return withoutBlanks(String(value));
  return value instanceof RegExp ? String(value) : JSON.stringify(value).replace(/[\u0080-\uffff]/g, escaped);
}

/**
 * The interfaces of the browser that have `on..` properties. Runs in the page, if nobody has asked the browser before.
 * @param {import('../page/types').PageWindow} window
 */
function ownersIn(window) {
  const { getOwnPropertyNames, getOwnPropertyDescriptor } = window.Object;
  const prototypeOf = (/** @type {string} */ name) => getOwnPropertyDescriptor(window, name)?.value?.prototype;
  return getOwnPropertyNames(window).filter((name) => {
    const prototype = prototypeOf(name);
    return prototype && getOwnPropertyNames(prototype).some((property) => /^on[a-z]/.test(property));
  });
}

/**
 * What the modules of page/ know of a recording, as code.
 * @param {string[]|null} handlerOwners null if the page itself has to look for them
 * @param {Partial<import('../page/types').Settings>} options
 * @returns {string}
 */
function settingsCode(handlerOwners, {
  depth = 'objects', keepsAll, handlerNames = HANDLER_NAMES, libraries = null, holds = null, fixed = null, standsStill = false, turns = null, isDriven = false,
  chaos = null, stamps = false, binding = '', secret = '',
}) {
  /** @type {Omit<import('../page/types').Settings, 'handlerOwners'>} */
  const settings = {
    depth, keepsAll: !!keepsAll, handlerNames, libraries, foreignness, scriptType, codeOfAddress, numbers: { FIRST_FIELD, FIRST_OBJECT }, holds, fixed, isDriven, standsStill, turns, chaos, stamps,
    answers: ANSWERS, withoutAnswer: WITHOUT_ANSWER, marks: MARKS, textWithoutMarks, binding, secret,
  };
  const owners = handlerOwners ? codeOf(handlerOwners) : `(${ownersIn})(window)`;
  return `{ handlerOwners: ${owners}, ${Object.entries(settings).map(([name, value]) => `${name}: ${codeOf(value)}`).join(', ')} }`;
}

/** @type {string|null} the modules are the same in each recording */
let modules = null;

/**
 * Called by driven/browser-recorder.js and session.js.
 * @param {string[]|null} handlerOwners
 * @param {Partial<import('../page/types').Settings>} options
 * @returns {string}
 */
function pageScript(handlerOwners, options) {
  modules = modules || bundled(MAIN, ['window', 'given'], withoutBlanks);
  return `${modules}(window, ${settingsCode(handlerOwners, options)}).begin(window);\n//# sourceURL=${SCRIPT_NAME}`;
}

module.exports = { pageScript, settingsCode, ownNames, ofRecording, SCRIPT_NAME };
