'use strict';
// A usual change for each pattern, for the page's author: what the list, the view, `--json` and SARIF say. It depends on what is looked up or used, and by
// whom. A suggestion how to fix the bug.

/** @typedef {import('./patterns/table.js').LookKey} LookKey */
/**
 * The kind of what the race is at, whether the side that finds nothing comes from an act of the user, and whether both sides write. Of an event that looks for
 * handlers: the tag of its target ('' if it is unknown), whether a library registers the handler for the page's own call, and, for a handler of the document or
 * the window that the page itself registers, in what. `isOfOneAct`: one act of a user causes both sides.
 * `isInLibraries`: both sides are in libraries, and no call of the page's own code is known that leads to one. `replace`: how many of two replies are known to
 * replace what was there. `isLink`: the browser follows a link for the event.
 * `script`: that of a library which registers a late handler; `line`: that of the page's own call that does. `change`: other-order.js.
 * @typedef {{kind: string, isOfUser: boolean, modes?: string, tag?: string, isByLibrary?: boolean, ofPage?: ''|'script'|'callback', isOfOneAct?: boolean, isInLibraries?: boolean, replace?: ''|'both'|'one', isLink?: boolean, script?: string, line?: number, change?: import('./other-order.js').Change}} Use
 */

const OF_ELEMENT = 'look it up after it was added: `defer` in place of `async`, or DOMContentLoaded';
const OF_USER = 'disable the control until it is set, or check for it first';
const OF_VARIABLE = 'use it after it is set: wait for the load event of its script, or for a promise';
const OF_READ = 'when code writes the field, clear the timeout and drop the reply that read it';
const OF_IDLE = 'usually none: the handler changed nothing; to lose no event, register it after the element';
/** A late handler whose event comes again by itself. */
const OF_AGAIN = 'usually none: the pointer comes again; to lose no event, register it after the element';
/** A late handler: where it would be in time, and what else an author can do. A call of a library needs its files there too. */
const IN_TIME = 'register it in a script right after the element';
const CALL = 'make this call';
const IN_TIME_BY_LIBRARY = `${CALL} right after the element, its libraries before it`;
const OR_DISABLE = 'or disable the element until then';
const OR_HIDE = 'or hide the element until then';
/** A late handler that a library registers by itself. */
const LOAD = 'load';
/** What is added for a link, which works without its handler. */
const OF_LINK = '; none if the link leads to the same content';
/** A late handler of the document or the window. */
const OF_PAGE = {
  script: 'register it in a script in `head`, without `async` or `defer`; it needs no element',
  callback: 'register it where its script runs, not in DOMContentLoaded or later; it needs no element',
};
const OF_ONE_ACT = 'usually none: the browser decides the order';
const OF_LIBRARIES = 'both sides are library code: use the library again only when it is done, or report it there';
/** Of overwriting replies. */
const DISCARD = 'discard a reply to an older request (number the requests, or abort the older one)';
const OF_REPLIES = { both: DISCARD, one: `one reply adds to what the other replaces: ${DISCARD}`, '': '' };
/**
 * Of a problem without a known harm, by what can be changed.
 * @type {{[change in import('./other-order.js').Change]: string}}
 */
const OF_CHANGES = {
  reply: 'keep the value in a local variable where the request is sent, or return in the reply if the value has changed since',
  timeout: 'clear the timeout before the write, or return in it if the value has changed since it was set',
  use: 'disable the control until the value is written, or check for it first',
  writers: 'let one side check whether the other has written, or cancel it',
  parts: 'let each side fill an element of its own',
  removal: 'return in the handler if it is no longer wanted',
  '': '',
};
/** What follows if a replay found nothing. */
const IF_UNSEEN = 'usually none: nothing visible differs. If something else depends on the order';
const IF = 'if the order matters, ';

/** Elements that a page can disable. */
const CAN_BE_DISABLED = new Set(['', 'button', 'fieldset', 'input', 'optgroup', 'option', 'select', 'textarea']);

/** @type {Record<LookKey, string>} */
const FIXES = {
  late: `${IN_TIME}, ${OR_DISABLE}`,
  field: 'write only while the field is empty, or before the user can reach it',
  act: 'keep what the act wrote (check for it first), or disable the control until this has run',
  undefined: `${OF_VARIABLE}; for an element: ${OF_ELEMENT}; in code that a user starts: ${OF_USER}`,
  missed: 'register it in a script without `async`, or check first whether the event has already come',
  replies: `if the newer reply is to replace what is shown: ${DISCARD}; if both only add: none`,
  other: `${IF}let one side wait for the other, or check that it is still wanted`,
  flag: 'usually none: the side that comes last sees the flag of the other',
  ended: 'usually none: after that code the callback does not run',
  counter: 'usually none: the count is the same in both orders',
  ticks: 'usually none: browsers keep this order',
  same: 'usually none: the value is the same in both orders',
  scratch: 'usually none: each callback begins with a value of its own',
  acts: 'usually none: the user decides the order; check that both orders do what is expected',
};

/**
 * The change for a late handler.
 * @param {Use} use
 */
function lateFixOf({ tag = '', isByLibrary, ofPage, script, line, isLink }) {
  const link = isLink ? OF_LINK : '';
  if (script) return `${LOAD} ${script}, and the libraries that it needs, before the element${link}`;
  if (ofPage) return OF_PAGE[ofPage] + link;
  const inTime = isByLibrary ? IN_TIME_BY_LIBRARY.replace(CALL, line ? `make the call of line ${line}` : CALL) : IN_TIME;
  return `${inTime}, ${CAN_BE_DISABLED.has(tag) ? OR_DISABLE : OR_HIDE}${link}`;
}

/**
 * The change for a problem. Called by sides.js.
 * @param {LookKey} look @param {Use} use
 */
function fixOf(look, use) {
  const { kind, isOfUser, modes = 'ww', isOfOneAct = false, isInLibraries = false, replace = '', change = '' } = use;
  if (look === 'late') return lateFixOf(use);
  if (look === 'field' && modes !== 'ww') return OF_READ;
  if (look === 'acts' && isOfOneAct) return OF_ONE_ACT;
  if (look === 'other' && isInLibraries) return OF_LIBRARIES;
  if (look === 'replies' && replace) return OF_REPLIES[replace];
  if (look === 'other' && change) return `${IF}${OF_CHANGES[change]}`;
  if (look !== 'undefined') return FIXES[look];
  return isOfUser ? OF_USER : kind === 'element' ? OF_ELEMENT : OF_VARIABLE;
}

/**
 * The change for a problem of which a replay found no visible difference. Called by entries.js.
 * @param {string} fix that of its pattern
 */
const fixOfSame = (fix) => (fix.startsWith('usually none') ? fix : `${IF_UNSEEN}: ${fix.replace(IF, '')}`);

/**
 * The change for an entry of several elements: what is right after the first one breaks the others. Called by entries.js.
 * @param {string} fix that of one element @param {string[]} others those of its others
 */
function fixOfSeveral(fix, others) {
  const verb = [fix, ...others].some((one) => one.includes(OR_HIDE)) ? 'hide' : 'disable';
  return fix.replace(OF_LINK, OF_LINK.replace('link leads', 'links lead')).replace(/after the element\b/, 'after the last element that it needs').replace(/or (?:disable|hide) the element until/, `or ${verb} the elements until`);
}

/**
 * The change for a late handler from which nothing is lost. Called by entries.js.
 * @param {string} none it begins with "usually none" @param {string} fix that of its pattern
 */
function fixOfNone(none, fix) {
  if (fix.startsWith(`${LOAD} `)) return none.replace('register it after the element', fix);
  return Object.values(OF_PAGE).some((one) => fix.startsWith(one)) ? none.replace('after the element', 'where its script runs') : none;
}

/**
 * The change for a late handler that changed nothing. A handler of keys may change something for another key. Called by entries.js.
 * @param {string} fix that of its pattern @param {string} event as `keydown at input#q`
 */
const fixOfIdle = (fix, event) => fixOfNone(event.startsWith('key') ? OF_IDLE.replace('the handler changed', 'for this key the handler changed') : OF_IDLE, fix);

module.exports = { FIXES, OF_AGAIN, OF_IDLE, OF_PAGE, fixOf, fixOfIdle, fixOfNone, fixOfSame, fixOfSeveral };
