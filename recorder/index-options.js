'use strict';
// The options of the interface for programs, as arguments of the commands, which check them. An object of options becomes command line arguments (flags). Used
// by index.js.

/**
 * How a page is recorded; docs/using.md describes each option of er_record.
 * @typedef {object} RecordOptions
 * @property {string} trace the file to write, which ends with .trace
 * @property {string[]} [actions] steps of a user, as those of --do
 * @property {string} [flow] the file of a user flow of one page
 * @property {boolean} [keepGoing] whether a step that cannot be done is only a warning
 * @property {number} [clicks] clicks on what is in view
 * @property {number} [seed] chooses them
 * @property {string} [avoid] a regular expression for what the clicks avoid, or none
 * @property {number} [slow] each file except pages is delayed by up to so many milliseconds
 * @property {number} [time] the recording ends after so many seconds
 * @property {string} [root] the folder to serve
 * @property {string} [fallback] the file that answers for paths without a file
 * @property {{[name: string]: string}} [headers] of each request to the page's server
 * @property {{user: string, password: string}} [credentials] for servers that require them
 * @property {{[name: string]: string}} [cookies] of the page's origin
 * @property {string} [storageState] a file as Playwright's storageState writes it
 * @property {string} [userDataDir] the folder of the browser profile, which stays
 * @property {string} [redact] a regular expression for what is left out of files and output
 * @property {string} [viewport] WIDTHxHEIGHT of the page's view, in pixels
 * @property {string} [userAgent]
 * @property {boolean} [ignoreCertificateErrors]
 * @property {'globals'|'objects'} [depth]
 * @property {string} [libraries] a regular expression, or none
 * @property {boolean} [keep] whether accesses are kept that are part of no race
 */

/**
 * How traces are listed, with the outputs of er_suite: `known` is the file of known races, to which `writesKnown` adds the new ones; `countsActs` counts two
 * acts of a user against each other too; `sarif` and `junit` are files, and `html` is a folder.
 * @typedef {{known?: string|null, writesKnown?: boolean, countsActs?: boolean, sarif?: string|null, junit?: string|null, html?: string|null}} ListOptions
 */
/**
 * How a race is run in the other order. What servers require is not saved with a recording. `mayChange`: requests may be sent again that change something on
 * another machine's server. `live`: random numbers and the clock are not fixed. `time`: as of a recording. `command`: for a trace of er_browser, the suite,
 * which is run by /bin/sh; its members are this and `time`, which limits each of its runs, in seconds.
 * @typedef {Pick<RecordOptions, 'headers'|'credentials'|'cookies'|'storageState'|'userDataDir'|'ignoreCertificateErrors'|'redact'|'viewport'|'userAgent'|'time'>
 *   & {mayChange?: boolean, live?: boolean, command?: string}} ReplayOptions
 */
/**
 * Which option each member is: of those with a value, and of flags. `others` have another form.
 * @typedef {{values: {[member: string]: string}, flags: {[member: string]: string}, others: string[]}} Members
 */

/** What an address and its servers need. @type {Members} */
const OF_SERVER = {
  values: { storageState: 'storage-state', userDataDir: 'user-data-dir', redact: 'redact', viewport: 'viewport', userAgent: 'user-agent', time: 'time' },
  flags: { ignoreCertificateErrors: 'ignore-certificate-errors' },
  others: ['headers', 'credentials', 'cookies'],
};
/** @type {Members} */
const OF_RECORD = {
  values: {
    flow: 'flow', clicks: 'clicks', seed: 'seed', avoid: 'avoid', slow: 'slow', root: 'root', fallback: 'fallback', depth: 'depth', libraries: 'libraries',
    ...OF_SERVER.values,
  },
  flags: { keepGoing: 'keep-going', keep: 'keep', ...OF_SERVER.flags },
  others: ['trace', 'actions', ...OF_SERVER.others],
};
/** @type {Members} */
const OF_LIST = { values: { known: 'known', sarif: 'sarif', junit: 'junit', html: 'html' }, flags: { writesKnown: 'write-known', countsActs: 'acts' }, others: [] };
/** @type {Members} */
const OF_REPLAY = { values: { command: 'replay-with', ...OF_SERVER.values }, flags: { mayChange: 'yes', live: 'live', ...OF_SERVER.flags }, others: OF_SERVER.others };

/**
 * The members that are options with a value, or flags. Throws an error that names a member that is none.
 * @param {object} options
 * @param {Members} members
 */
function wordsOf(options, { values, flags, others }) {
  const wrong = Object.keys(options).find((name) => !(Object.hasOwn(values, name) || Object.hasOwn(flags, name) || others.includes(name)));
  if (wrong !== undefined) throw new Error(`unknown option: ${wrong}`);
  const given = Object.entries(options).filter(([name, value]) => !others.includes(name) && value !== undefined && value !== null && value !== false);
  return given.map(([name, value]) => (Object.hasOwn(flags, name) ? `--${flags[name]}` : `--${values[name]}=${value}`));
}

/** @param {object} named @param {(name: string, value: string) => string} write */
const each = (named, write) => Object.entries(named).map(([name, value]) => write(name, String(value)));

/** @param {Pick<RecordOptions, 'headers'|'credentials'|'cookies'>} options */
function serverWords({ headers = {}, credentials, cookies = {} }) {
  return [
    ...each(headers, (name, value) => `--header=${name}:${value}`),
    ...credentials ? [`--http-credentials=${credentials.user}:${credentials.password}`] : [],
    ...each(cookies, (name, value) => `--cookie=${name}=${value}`),
  ];
}

/**
 * Arguments of er_record.
 * @param {RecordOptions} options
 * @returns {string[]}
 */
function recordArguments(options) {
  const { trace, actions = [] } = options;
  if (typeof trace !== 'string' || !trace.endsWith('.trace')) throw new Error('trace must name a file that ends with .trace');
  return [...wordsOf(options, OF_RECORD), ...actions.map((step) => `--do=${step}`), ...serverWords(options)];
}

/**
 * Arguments of er_suite.
 * @param {ListOptions} options
 */
const listArguments = (options) => wordsOf(options, OF_LIST);

/**
 * Arguments of er_replay, or with `command` of er_suite.
 * @param {ReplayOptions} options
 */
const replayArguments = (options) => [...wordsOf(options, OF_REPLAY), ...serverWords(options)];

module.exports = { recordArguments, listArguments, replayArguments };
