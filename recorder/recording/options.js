'use strict';
// The options of the commands that record pages or list races, and how each is written as an argument.

const { credentialsOf, withoutCredentials } = require('../common/address.js');
const { keepPattern } = require('../common/secrets.js');
const { AVOIDED } = require('../options/avoided.js');
const { readFlow, readStep } = require('../options/flow.js');
const { LIBRARIES } = require('../options/libraries.js');
const { parseArguments, UsageFault } = require('../options/parse.js');
const { keepSecretsOf } = require('../options/secrets-of.js');
const { parseStep } = require('../options/step.js');
const { readStorageState } = require('../options/storage-state.js');
const {
  wholeNumber, fileName, pattern, colors, depth, endpoint, header, credentials, webAddress, cookie, viewport, userAgent, suiteCommand,
  problemName,
} = require('../options/values.js');
const { NEWEST_VERSION } = require('../trace/spelling.js');
const { checkOptions } = require('./check-options.js');

/** @typedef {import('../options/step.js').Step} Step */
/** @typedef {import('../browser/user.js').SpotAct} SpotAct */

/**
 * How a page is recorded.
 * @typedef {object} RecordingOptions
 * @property {(Step|SpotAct)[]} actions what the user does, in the order given; of a replay also the clicks that the seed chose
 * @property {string|null} flowPage the page of a user flow
 * @property {string|null} flowOfMany the file of a flow that loads other pages
 * @property {boolean} keepsGoing whether a step that can't be done is only a warning
 * @property {number} clicks so many clicks on what is in view follow
 * @property {number} seed chooses them
 * @property {RegExp|null} avoided what they do not hit, by its text and names
 * @property {number} slow each file except pages is delayed by up to so many milliseconds
 * @property {number} [salt] another one delays other files
 * @property {number|null} [chaos] the seed by which responses, callbacks and the parser are held back, for developers
 * @property {number} time the recording ends after so many seconds
 * @property {number} version of the trace format
 * @property {string|null} root the folder to serve, if it is not the page's own
 * @property {string|null} fallback the file in the served folder that answers for paths without a file
 * @property {[name: string, value: string][]} headers of each request to the page's server
 * @property {{user: string, password: string}|null} credentials for servers that require them
 * @property {boolean} ignoresCertificateErrors
 * @property {[name: string, value: string][]} cookies of the page's origin
 * @property {import('../options/storage-state.js').StorageState|null} storageState cookies and local storage from a file
 * @property {string|null} storageStateFile this file
 * @property {string[]} redacted the patterns of --redact
 * @property {string|null} userDataDir the folder of a profile that stays
 * @property {{width: number, height: number}|null} viewport
 * @property {string|null} userAgent
 * @property {boolean} isHeaded whether the browser's window is shown
 * @property {boolean} isRaw whether nothing is recorded but errors and times
 * @property {'globals'|'objects'} depth what is recorded of scripts
 * @property {RegExp|null} libraries the names of the files of libraries
 * @property {boolean} keepsAll whether accesses are kept that are part of no race
 * @property {{host: string, port: number}|null} attach the browser of another program
 * @property {boolean} isLive whether random numbers and the clock are the browser's own in each run
 */

/**
 * How the list of races is made and written.
 * @typedef {object} ListOptions
 * @property {number} runs how often the page is recorded
 * @property {string|null} known the file of known races
 * @property {boolean} writesKnown
 * @property {boolean} countsActs whether races of two acts of a user count too
 * @property {boolean} isJson
 * @property {string|null} sarif
 * @property {string|null} junit the file for the list as JUnit XML
 * @property {string|null} html the folder for the page of the list and the views
 * @property {string|null} list the file of addresses of many pages
 * @property {string|null} sitemap the address of a sitemap of such pages
 * @property {number} jobs so many of these at once, or 0 for half of the processors
 * @property {boolean} isFresh whether those are recorded again that are recorded already
 * @property {'auto'|'always'|'never'} color whether the list has colors
 */

/**
 * How races are replayed.
 * @typedef {object} ReplayOptions
 * @property {boolean} isReplayed
 * @property {boolean} isNeverReplayed whether er_page replays nothing, not even what no server notices
 * @property {number[]} races their numbers in the report, or none for the race of each line
 * @property {number|null} most so many races, or null for the usual number
 * @property {number} atOnce so many runs of the page at once, or 0 for as many as there is room for
 * @property {boolean} mayChange whether requests may be sent again that change something on a server
 * @property {string} replayWith the command of a test suite that is run again, or ''
 * @property {number} suiteTime it is stopped after so many seconds, or 0 for the usual limit
 * @property {string[]} wanted the problems for which it is run, by their places in the list or their names; none for the first ones
 */

/** @typedef {RecordingOptions & ListOptions & ReplayOptions} CommandOptions */
/** @typedef {import('../options/parse.js').OptionTable<CommandOptions>} Table */

/** More are mostly a slip: each run opens a browser. */
const MOST_RUNS = 100;
const MOST_JOBS = 100;

/**
 * The options of a call without arguments (defaults): `time` is in seconds, `--time` limits how long a page is recorded at most.
 * @returns {CommandOptions}
 */
function defaults() {
  return {
    actions: [], flowPage: null, flowOfMany: null, keepsGoing: false, clicks: 0, seed: 1, avoided: AVOIDED, slow: 0, time: 30, version: NEWEST_VERSION, root: null, fallback: null,
    headers: [], credentials: null, ignoresCertificateErrors: false, cookies: [], storageState: null, storageStateFile: null, redacted: [], userDataDir: null, viewport: null, userAgent: null,
    isHeaded: false, isRaw: false, chaos: null, depth: 'objects', libraries: LIBRARIES, keepsAll: false, attach: null, isLive: false, runs: 1, known: null, writesKnown: false,
    countsActs: false, isJson: false, sarif: null, color: 'auto', junit: null, html: null, list: null, sitemap: null, jobs: 0, isFresh: false, isReplayed: false,
    isNeverReplayed: false, races: [], most: null, atOnce: 0, mayChange: false, replayWith: '', suiteTime: 0,
    wanted: [],
  };
}

/**
 * The options that a flow sets: its steps, its page and its size. `--viewport` counts before that of the flow.
 * @param {CommandOptions} options
 * @param {import('../options/flow.js').Flow} flow
 * @param {string} file
 */
function takeFlow(options, { page, viewport: size, steps, isOfMany }, file) {
  if (isOfMany) options.flowOfMany = file;
  options.actions.push(...steps);
  options.flowPage = page;
  options.viewport = options.viewport || size;
}

/** @type {Table[string]} */
const FORMAT = { take: (options, value, name) => { options.version = wholeNumber(name, value, 1, NEWEST_VERSION); } };

/** @type {Table} what an address and its servers need */
const SERVER = {
  header: { take: (options, value, name) => { options.headers.push(header(name, value)); } },
  'http-credentials': { take: (options, value, name) => { options.credentials = credentials(name, value); } },
  cookie: { take: (options, value, name) => { options.cookies.push(cookie(name, value)); } },
  'storage-state': { take: (options, value, name) => Object.assign(options, { storageState: readStorageState(name, value), storageStateFile: value }) },
  'user-data-dir': { take: (options, value, name) => { options.userDataDir = fileName(name, value); } },
  'ignore-certificate-errors': { isFlag: true, take: (options) => { options.ignoresCertificateErrors = true; } },
};
/** @type {Table} */
const RECORDING = {
  do: { take: (options, value, name) => { options.actions.push(parseStep(name, value)); } },
  flow: { take: (options, value, name) => { takeFlow(options, readFlow(name, value), value); } },
  'keep-going': { isFlag: true, take: (options) => { options.keepsGoing = true; } },
  clicks: { take: (options, value, name) => { options.clicks = wholeNumber(name, value); } },
  seed: { take: (options, value, name) => { options.seed = wholeNumber(name, value); } },
  avoid: { take: (options, value, name) => { options.avoided = pattern(name, value); } },
  slow: { take: (options, value, name) => { options.slow = wholeNumber(name, value); } },
  time: { take: (options, value, name) => { options.time = wholeNumber(name, value, 1); } },
  root: { take: (options, value, name) => { options.root = fileName(name, value); } },
  fallback: { take: (options, value, name) => { options.fallback = fileName(name, value); } },
  ...SERVER,
  redact: { take: (options, value, name) => {
    options.redacted.push(value);
    keepPattern(new RegExp((pattern(name, value) || /(?!)/).source, 'g'));
  } },
  viewport: { take: (options, value, name) => { options.viewport = viewport(name, value); } },
  'user-agent': { take: (options, value, name) => { options.userAgent = userAgent(name, value); } },
  depth: { take: (options, value, name) => { options.depth = depth(name, value); } },
  libraries: { take: (options, value, name) => { options.libraries = pattern(name, value); } },
  keep: { isFlag: true, take: (options) => { options.keepsAll = true; } },
  format: FORMAT,
  version: FORMAT, // its name in earlier releases, and in their recordings
};
/** @type {Table} */
const LISTING = {
  known: { take: (options, value, name) => { options.known = fileName(name, value); } },
  'write-known': { isFlag: true, take: (options) => { options.writesKnown = true; } },
  acts: { isFlag: true, take: (options) => { options.countsActs = true; } },
  json: { isFlag: true, take: (options) => { options.isJson = true; } },
  sarif: { take: (options, value, name) => { options.sarif = fileName(name, value); } },
  color: { take: (options, value, name) => { options.color = colors(name, value); } },
};
/** @type {Table} the outputs of a list over many page loads */
const OF_LOADS = {
  junit: { take: (options, value, name) => { options.junit = fileName(name, value); } },
  html: { take: (options, value, name) => { options.html = fileName(name, value); } },
};
/** @type {Table} many pages */
const MANY = {
  list: { take: (options, value, name) => { options.list = fileName(name, value); } },
  sitemap: { take: (options, value, name) => { options.sitemap = webAddress(name, value); } },
  jobs: { take: (options, value, name) => { options.jobs = wholeNumber(name, value, 1, MOST_JOBS); } },
  fresh: { isFlag: true, take: (options) => { options.isFresh = true; } },
  ...OF_LOADS,
};
/** @type {Table} what a replay of an earlier recording takes */
const AGAIN = {
  race: { take: (options, value, name) => { options.isReplayed = true; options.races.push(wholeNumber(name, value, 1)); } },
  yes: { isFlag: true, take: (options) => { options.mayChange = true; } },
  live: { isFlag: true, take: (options) => { options.isLive = true; } },
};
/** @type {Table} */
const REPLAY = {
  replay: { isFlag: true, take: (options) => { options.isReplayed = true; } },
  'no-replay': { isFlag: true, take: (options) => { options.isNeverReplayed = true; } },
  most: { take: (options, value, name) => { options.most = wholeNumber(name, value); } },
  'at-once': { take: (options, value, name) => { options.atOnce = wholeNumber(name, value); } },
  ...AGAIN,
};
/** @type {Table} what runs the suite of page loads again */
const WITH_SUITE = {
  'replay-with': { take: (options, value, name) => { options.replayWith = suiteCommand(name, value); } },
  replay: { take: (options, value, name) => { options.wanted.push(problemName(name, value)); } },
  time: { take: (options, value, name) => { options.suiteTime = wholeNumber(name, value, 1); } },
};
/** @type {Table[string]} */
const HEADED = { isFlag: true, take: (options) => { options.isHeaded = true; } };
/** @type {Table} */
const OF_RECORD = {
  chaos: { take: (options, value, name) => { options.chaos = wholeNumber(name, value); } },
  raw: { isFlag: true, take: (options) => { options.isRaw = true; } },
  attach: { take: (options, value, name) => { options.attach = endpoint(name, value); } },
};
/** @type {{[command: string]: Table}} */
const TABLES = {
  er_record: { ...RECORDING, ...OF_RECORD },
  er_page: {
    ...RECORDING, ...REPLAY, ...LISTING, ...MANY, headed: HEADED, runs: { take: (options, value, name) => { options.runs = wholeNumber(name, value, 1, MOST_RUNS); } },
  },
  er_replay: { ...AGAIN, ...SERVER, time: RECORDING.time, redact: RECORDING.redact, viewport: RECORDING.viewport, 'user-agent': RECORDING['user-agent'] },
  er_suite: { ...LISTING, ...OF_LOADS, ...WITH_SUITE },
};
/** @type {Table} `step` is one of a flow, as a recording saves it */
const ANY = { ...TABLES.er_page, ...TABLES.er_record, step: { take: (options, value, name) => { options.actions.push(readStep(name, value)); } } };

/**
 * Says which command takes an option that another one does not know.
 * @param {unknown} fault
 */
function withCommand(fault) {
  const [, name] = fault instanceof UsageFault ? /^unknown option: --(.*)$/.exec(fault.message) || [] : [];
  const others = name ? Object.keys(TABLES).filter((command) => Object.hasOwn(TABLES[command], name)) : [];
  return others.length ? new UsageFault(`unknown option: --${name} (an option of ${others.join(' and ')})`) : fault;
}

/**
 * The user and the password in a web address become credentials, so that no request and no file that is written has them.
 * @param {string} given an address, a file or a folder
 * @param {CommandOptions} options
 */
function withoutUser(given, options) {
  options.credentials = options.credentials || credentialsOf(given);
  const address = withoutCredentials(given);
  if (/^https?:/i.test(address) && !hostOf(address)) throw new UsageFault(`not a web address: ${address}`);
  return address;
}

/**
 * The host of an address; empty if it has none, as a file.
 * @param {string} address
 */
function hostOf(address) {
  try {
    return new URL(address).hostname;
  } catch {
    return ''; // no address
  }
}

/**
 * Reads arguments by a table, keeps their secrets out of all output from here on, and refuses options that contradict each other.
 * @param {string[]} args
 * @param {Table} table
 * @returns {{options: CommandOptions, positionals: string[], isHelp: boolean}}
 */
function parseBy(args, table) {
  const options = defaults();
  const { positionals, isHelp } = parseArguments(args, table, options);
  const addresses = positionals.map((one) => withoutUser(one, options));
  keepSecretsOf(options, positionals);
  if (!isHelp) checkOptions(options);
  return { options, positionals: addresses, isHelp };
}

/**
 * The arguments of a command.
 * @param {'er_record'|'er_page'|'er_replay'|'er_suite'} command
 * @param {string[]} args
 */
function parseCommand(command, args) {
  try {
    const parsed = parseBy(args, TABLES[command]);
    const { flowPage } = parsed.options;
    const isMissing = parsed.positionals.length < (command === 'er_record' ? 2 : 1);
    return flowPage && isMissing ? { ...parsed, positionals: [withoutUser(flowPage, parsed.options), ...parsed.positionals] } : parsed;
  } catch (fault) {
    throw withCommand(fault);
  }
}

/**
 * The options in a list of arguments, as a recording saves them; the positional ones among them say nothing. Called by driven/main.js and origin.js.
 * @param {string[]} args
 */
const parseOptions = (args) => parseBy(args, ANY).options;

module.exports = { parseCommand, parseOptions, UsageFault, TABLES };
