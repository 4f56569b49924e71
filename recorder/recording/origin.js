'use strict';
// How a trace was recorded: what OUT.names.json saves about the page and the options, so that the page can be recorded once more.

const fs = require('node:fs');
const path = require('node:path');
const { fileURLToPath } = require('node:url');
const { HIDDEN } = require('../common/address.js');
const { digestOf } = require('../common/digest.js');
const { parseOptions } = require('./options.js');

/** @typedef {import('./options.js').CommandOptions} CommandOptions */
/** @typedef {import('./options.js').RecordingOptions} RecordingOptions */

/**
 * What OUT.names.json saves: `page` and `root` are relative to its folder. No header, cookie, profile or password is saved.
 * @typedef {object} Origin
 * @property {string} digest of the trace
 * @property {boolean} isAttached
 * @property {string} page
 * @property {string|null} root
 * @property {string|null} [fallback]
 * @property {string[]} words the other options, as arguments
 * @property {import('../browser/user.js').SpotAct[]} picks the clicks that the seed chose
 * @property {number} salt
 */

/** Why a trace can't be recorded again: its status is in command.js. */
class OriginFault extends Error {}

/** @param {string} given */
const isAddress = (given) => /^(https?|data|about):/i.test(given);

/**
 * @param {string} file
 * @param {string} traceFile
 */
const relative = (file, traceFile) => path.relative(path.dirname(path.resolve(traceFile)), path.resolve(file)) || '.';

/**
 * A file of this machine relative to the trace: both can be moved together.
 * @param {string} given
 * @param {string} traceFile
 */
function fromTrace(given, traceFile) {
  if (isAddress(given)) return given;
  const [, name, rest] = /^([^?#]*)(.*)$/s.exec(given) || ['', given, ''];
  return relative(/^file:/i.test(name) ? fileURLToPath(name) : name, traceFile) + rest;
}

/**
 * @param {string} page
 * @param {string} traceFile
 */
const toPage = (page, traceFile) => (isAddress(page) ? page : path.join(path.dirname(traceFile), page));

/**
 * The options that decide what is recorded, as arguments. Called by many-pages.js.
 * @param {RecordingOptions} options
 */
function argumentsOf(options) {
  const numbers = [['seed', options.seed], ['slow', options.slow], ['time', options.time], ['version', options.version]];
  const acts = options.actions.flatMap((act) => (act.kind === 'spot' ? [] : act.given ? [`--step=${JSON.stringify(act.given)}`] : ['--do', act.said]));
  const libraries = options.libraries ? options.libraries.source : 'none';
  const { viewport, userAgent } = options;
  const shape = [...viewport ? ['--viewport', `${viewport.width}x${viewport.height}`] : [], ...userAgent ? [`--user-agent=${userAgent}`] : []];
  const flags = [options.keepsAll && '--keep', options.isLive && '--live', options.keepsGoing && '--keep-going'].flatMap((flag) => flag || []);
  return [...acts, ...numbers.flatMap(([name, value]) => [`--${name}`, String(value)]), '--depth', options.depth, `--libraries=${libraries}`, ...shape, ...flags];
}

/**
 * What OUT.names.json saves. Called by files.js.
 * @param {{given: string, user?: {picks: object[]}|null}} recorder
 * @param {RecordingOptions & {isDriven?: boolean}} options
 * @param {string} traceFile
 * @param {string} text of the trace
 */
function originOf(recorder, options, traceFile, text) {
  const { root, fallback } = options;
  return {
    digest: digestOf(text),
    isAttached: !!options.attach || !!options.isDriven,
    page: fromTrace(recorder.given, traceFile),
    root: root && relative(root, traceFile),
    ...(fallback ? { fallback } : {}),
    words: argumentsOf(options),
    picks: recorder.user?.picks || [],
    salt: options.salt || 0,
  };
}

/**
 * The text of a file of an earlier recording. Throws an OriginFault, whose message the command prints.
 * @param {string} file
 * @returns {string}
 */
function readText(file) {
  try {
    return fs.readFileSync(file, 'utf8');
  } catch (fault) {
    const { code, message } = /** @type {NodeJS.ErrnoException} */ (fault);
    throw new OriginFault(code === 'ENOENT' ? `there is no file ${file}` : `${file} cannot be read: ${message}`);
  }
}

/**
 * Reads OUT.names.json; what is no such file is an OriginFault.
 * @param {string} file
 * @returns {import('../list/types').Names & {recording?: Partial<Origin>}} as the file has them: who reads the other members takes them as they are
 */
function readNames(file) {
  try {
    const names = JSON.parse(readText(file));
    if (typeof names === 'object' && names) return names;
  } catch (fault) {
    if (fault instanceof OriginFault) throw fault;
    throw new OriginFault(`${file} is not a names file of er_record: ${/** @type {Error} */ (fault).message}`);
  }
  throw new OriginFault(`${file} is not a names file of er_record`);
}

/** @param {unknown} list */
const isTexts = (list) => Array.isArray(list) && list.every((one) => typeof one === 'string');

/**
 * A trace that was recorded before, its names, and how to record its page again. Fails with an OriginFault. Called by replay-race.js.
 * @param {string} traceFile
 */
function readOrigin(traceFile) {
  const text = readText(traceFile);
  const file = `${traceFile.replace(/\.trace$/, '')}.names.json`;
  if (!fs.existsSync(file)) throw new OriginFault(`there is no file ${file}, which er_page and er_record write beside the trace`);
  const names = readNames(file);
  const { recording } = names;
  if (!recording || !isTexts(recording.words) || typeof recording.page !== 'string') {
    throw new OriginFault(`${file} does not say how the page was recorded: record the page again`);
  }
  if (recording.digest !== digestOf(text)) throw new OriginFault(`${file} belongs to another trace: keep OUT.trace and OUT.names.json together`);
  if ([recording.page, ...recording.words || []].some((one) => one.includes(HIDDEN))) {
    throw new OriginFault(`${traceFile} was recorded with a secret in its address or in a step, which is not saved: record it again with er_page --replay`);
  }
  if (recording.isAttached) throw new OriginFault(`${traceFile} was recorded with --attach: only the driver of the browser can act again`);
  const given = toPage(recording.page, traceFile);
  if (!isAddress(given) && !fs.existsSync(given.replace(/[?#].*$/s, ''))) throw new OriginFault(`the page is gone: there is no ${given}`);
  const root = recording.root ? path.join(path.dirname(traceFile), recording.root) : null;
  return { text, names, given, options: { ...optionsOf(recording, file), root, fallback: recording.fallback || null } };
}

/**
 * The options of a recording. A click that the seed chose is done again as it was.
 * @param {Partial<Origin>} recording
 * @param {string} file
 * @returns {CommandOptions}
 */
function optionsOf({ words = [], picks = [], salt = 0 }, file) {
  try {
    const options = parseOptions(words);
    return { ...options, actions: [...options.actions, ...picks], salt };
  } catch (fault) {
    throw new OriginFault(`${file} has options that this version does not know: ${/** @type {Error} */ (fault).message}`);
  }
}

module.exports = { originOf, readOrigin, OriginFault, argumentsOf };
