'use strict';
// The words of where.js: stems, names split at capitals, words that say nothing, and other words for those that the recorder uses (synonyms).

/** Words of a question that say nothing about a module. */
const STOP = new Set(('a about again all also am an and another any are as at be been before being but by can cannot come comes contain contains could did do does during each else ever every for from'
  + ' get gets given goes had happen happens has have having here how i if in instead into is it its itself just like make makes many may me might more most much must my no nor not'
  + ' of off on one ones only onto or other others our out over own same shall should since so some still such than that the their them then there these they this those'
  + ' er_page er_record says said to treat treated turned under until up upon us use used uses using very via was way we were what when where whether which while who whom whose why will with within without would'
  + ' you your').split(' '));

/**
 * Other words for those of the map and of comments, which are before the colon: what a developer could type. Words for one single question do not belong here,
 * but into a comment of the module that answers it.
 */
const SYNONYMS = {
  abort: 'cancel cancelled', clear: 'cancel cancelled clearTimeout clearInterval cancelAnimationFrame cancelIdleCallback', timeout: 'setTimeout timer', interval: 'setInterval timer',
  timer: 'setTimeout setInterval', 'animation frame': 'requestAnimationFrame raf', 'idle callback': 'requestIdleCallback', iframe: 'frame', frame: 'iframe', sent: 'send', share: 'merge join',
  handler: 'listener', listener: 'handler', registration: 'register subscribe', removeEventListener: 'unregister unsubscribe remove removal once signal',
  'log-in': 'login signin auth authentication credentials session', password: 'credentials auth', stack: 'callstack', xhr: 'ajax xmlhttprequest', parallel: 'concurrent concurrency simultaneous',
  known: 'baseline suppress ignore', fold: 'dedupe duplicate merge', picture: 'screenshot png', order: 'ordering happens-before', chaos: 'shuffle jitter',
  instrumented: 'transpile rewrite transform injected', mark: 'instrumented instrumentation', types: 'typescript', keys: 'keyboard', click: 'mouse tap touch button', rest: 'idle settle hang stuck',
  response: 'intercept reply answer', request: 'fetch load', accesses: 'reads writes', driver: 'playwright puppeteer selenium webdriver cypress karma',
  driven: 'playwright puppeteer selenium webdriver', crash: 'oom died', paused: 'intercept intercepts', secrets: 'password mask redact token', navigate: 'navigation',
  'opened window': 'popup', stale: 'unused obsolete', directive: 'strict', encoding: 'charset utf-8 utf8 utf-16', parse: 'syntaxerror', fault: 'malformed corrupt broken invalid error failure garbage',
  refused: 'reject rejected', held: 'delay hold delayed', limit: 'max maximum cap', most: 'max maximum many', longest: 'max maximum', temporary: 'tmp', write: 'disk enospc save', cleanup: 'leftover orphan',
  rank: 'severity sort', noise: 'noisy flaky nondeterministic', twice: 'repeated repeatable', policy: 'csp', element: 'node', tree: 'dom', folder: 'directory', text: 'string source content', place: 'position location',
  signal: 'sigint sigterm kill', status: 'exitcode ci', chance: 'random flaky', analyzer: 'backend', variable: 'property field', scope: 'closure', digest: 'hash', copy: 'rewrite',
  'program': 'api', 'interface': 'api', process: 'spawn child', remove: 'delete unlink gone', delete: 'remove', address: 'url', argument: 'option flag', option: 'flag argument', check: 'validate',
  fix: 'suggestion advice',
  terminal: 'tty console', style: 'css color colour', letter: 'character', output: 'stdout print', member: 'field', missing: 'none absent',
  fail: 'ci', build: 'ci', largest: 'big large size', processes: 'parallel', processors: 'cpu cores', batch: 'chunk',
  together: 'combine combination', user: 'person', error: 'exception', made: 'create created', makes: 'create created', insert: 'inject', shown: 'display render', draw: 'render', pattern: 'kind category',
  recipe: 'add extend implement', EventSource: 'sse', kept: 'remember cached', legal: 'illegal', sentence: 'headline wording title', attach: 'connect', complain: 'warn warning', unserved: 'missing', try: 'retry attempt', again: 'retry',
  cut: 'truncate shorten shortened abbreviate ellipsis', release: 'resume continue', event: 'dispatch', dispatch: 'event fire', wait: 'await', take: 'accept', bytes: 'buffer', store: 'persist save', named: 'called', width: 'size',
};

/** What a stem loses at its end, one after the other, if at least three letters stay. */
const ENDINGS = [/(?<=[^s])s$/, /(?:ing|ed)$/, /(?:er|or)$/, /(?:ations?|ions?|ments?|ly|al|able|ive)$/, /e$/];
/** Words whose endings are no endings. */
const WHOLE = new Set(['string', 'thing', 'during', 'need', 'feed', 'speed', 'seed', 'process', 'status', 'address', 'access', 'class', 'css', 'this', 'axis', 'canvas', 'alias', 'focus', 'typed']);

/** Forms that have no ending of the above: each stands for the word before the colon. */
const IRREGULAR = {
  break: 'broke broken', choose: 'chose chosen', find: 'found', freeze: 'froze frozen', give: 'gave', hide: 'hid hidden', hold: 'held', keep: 'kept', lose: 'lost', overwrite: 'overwrote overwritten',
  rewrite: 'rewrote rewritten', run: 'ran', see: 'saw seen', send: 'sent', show: 'showed shown', take: 'took taken', throw: 'threw thrown', try: 'tried tries', write: 'wrote written',
};
/** @type {Map<string, string>} */
const regular = new Map(Object.entries(IRREGULAR).flatMap(([word, forms]) => forms.split(' ').map((form) => [form, word])));

/** @type {Map<string, string>} */
const stems = new Map();

/**
 * A word without its endings, each of which is tried once, in their order.
 * @param {string} word in lower case
 */
function stemOf(word) {
  const known = stems.get(word);
  if (known !== undefined) return known;
  let stem = (regular.get(word) || word).replace(/ies$/, 'y').replace(/(?<=ss|x|ch|sh)es$/, '');
  for (const ending of ENDINGS) {
    if (WHOLE.has(stem)) break;
    const shorter = stem.replace(ending, '');
    if (shorter.length < 3 || (shorter.length < stem.length - 1 && !/[aeiouy]/.test(shorter))) continue;
    stem = shorter.length < stem.length ? shorter.replace(/([bdgmnprt])\1$/, '$1') : stem;
  }
  stems.set(word, stem);
  return stem;
}

/**
 * The stem of a name with several parts: `sourceMap`, `source-map` and `Source.map` have one.
 * @param {string} name
 */
const wholeStem = (name) => stemOf(name.toLowerCase().replace(/[-_$.]/g, ''));

/**
 * The stems of a text: of each name itself and, if it has several, of its parts: `addEventListener` has four, `log-in` has three.
 * @param {string} text
 * @returns {string[]}
 */
function stemsIn(text) {
  /** @type {string[]} */
  const found = [];
  for (const [name] of text.matchAll(/[A-Za-z][\w$]*(?:[-.][A-Za-z]\w*)*/g)) {
    const parts = name.match(/[A-Z]?[a-z]+|[A-Z]+(?![a-z])|\d+/g) || [name];
    if (parts.length > 1) for (const part of parts) found.push(stemOf(part.toLowerCase()));
    found.push(wholeStem(name));
  }
  return found;
}

/** @type {Map<string, string[]>} */
const others = new Map();
for (const [word, words] of Object.entries(SYNONYMS)) {
  for (const one of words.split(' ')) {
    const stem = stemOf(one.toLowerCase().replace(/-/g, ''));
    others.set(stem, [...others.get(stem) || [], word.includes('-') ? word.replace('-', '') : word]);
  }
}

/**
 * Other words for a word, as lists of stems: all of a list are one other word (`animation frame`).
 * @param {string} stem
 * @returns {string[][]}
 */
const synonymsOf = (stem) => (others.get(stem) || []).map((word) => word.split(' ').map((one) => stemOf(one.toLowerCase()))).filter((list) => list.length > 1 || list[0] !== stem);

/** @param {string} word */
const isStop = (word) => STOP.has(word.toLowerCase());

/** Signs of JavaScript that a question can have, and the words of comments for them. */
const SIGNS = /** @type {[RegExp, string][]} */ ([
  [/\+\+|--(?![\w-])/g, ' update '], [/[-+*/%&|^]=|\?\?=|&&=|\|\|=/g, ' assignment update '], [/\?\.(?!\d)/g, ' optional chaining '], [/\.\.\.(?=\w)/g, ' spread rest '], [/=>/g, ' arrow '],
]);

/** @param {string} text */
const withoutSigns = (text) => SIGNS.reduce((rest, [sign, words]) => rest.replace(sign, words), text);

module.exports = { stemOf, stemsIn, wholeStem, synonymsOf, isStop, withoutSigns };
