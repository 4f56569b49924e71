// Which event is a consequence of which: what the browser does by itself once the handlers of a user's event are done, in the same task. `mousedown` after
// `pointerdown`, `click` after `mouseup`, `keypress` and `input` after `keydown`.

import { hasItem } from '../core/lists.js';
import { Map, Set } from '../core/taken.js';

const FOCUS = ['focus', 'blur', 'focusin', 'focusout', 'change', 'select', 'selectionchange'];
const EDITS = ['beforeinput', 'input', 'change', 'click', 'submit', 'reset', 'invalid', ...FOCUS];
const OPENS = ['beforetoggle', 'toggle', 'cancel', 'close'];
const STEPS = ['popstate', 'navigate', 'navigatesuccess', 'navigateerror'];
const CLIPBOARD = ['copy', 'cut', 'paste'];
/** By the type of the cause. */
const CONSEQUENCES = new Map([
  ['pointerdown', ['mousedown']],
  ['pointerup', ['mouseup', 'lostpointercapture']],
  ['mousedown', [...FOCUS, 'selectstart', 'contextmenu']],
  ['mouseup', ['click', 'auxclick', 'contextmenu', 'dblclick', 'lostpointercapture', ...OPENS, ...FOCUS]],
  ['click', ['click', 'dblclick', 'command', 'formdata', ...STEPS, ...OPENS, ...EDITS]],
  ['keydown', ['keypress', ...STEPS, ...OPENS, ...CLIPBOARD, ...EDITS]],
  ['keypress', EDITS],
  ['paste', EDITS],
  ['cut', EDITS],
  ['drop', EDITS],
  ['keyup', ['click']],
  ['beforeinput', ['input', 'change']],
  ['input', ['change']],
  ['change', FOCUS],
  ['blur', FOCUS],
  ['focus', FOCUS],
  ['submit', ['formdata', ...OPENS]],
]);
/** Those that the browser queues after a user's act come within so many milliseconds; so does a key's letter, which can be an act of its own. */
const LATER = new Set(['select', 'selectionchange', 'toggle', 'close', 'keypress']);
const LONGEST_PAUSE = 30;

/**
 * Called by dispatches.js.
 * @param {string} type
 */
const hasConsequences = (type) => CONSEQUENCES.has(type);

/**
 * Whether the browser dispatches an event for what a user may do: not the `change` of a `MediaQueryList` and of others that are no fields. Called by
 * dispatches.js.
 * @param {Event|undefined} event
 * @param {import('../types').Target|undefined} target
 */
const mayBeOfUser = (event, target) => !!event && event.isTrusted && (event.type !== 'change' || !target || !!target.nodeType);

/**
 * Whether an event of a type that begins now can be a consequence of a dispatch whose handlers are done. Called by dispatches.js.
 * @param {import('../types').Dispatch} cause
 * @param {string} type
 * @param {number} task the task that runs
 * @param {number} now
 */
function isConsequence(cause, type, task, now) {
  if (!cause.event || !mayBeOfUser(cause.event, cause.target) || cause.active) return false;
  if (!hasItem(CONSEQUENCES.get(cause.event.type) || [], type)) return false;
  return cause.task === task || (LATER.has(type) && now - cause.lastTime < LONGEST_PAUSE);
}

/**
 * Whether the browser can have queued an event of a type in a dispatch of another type that ended so many milliseconds ago, before something else began. Called
 * by queued.js.
 * @param {string} causeType
 * @param {string} type
 * @param {number} pause
 */
function isQueuedBy(causeType, type, pause) {
  return type !== 'keypress' && LATER.has(type) && pause < LONGEST_PAUSE && hasItem(CONSEQUENCES.get(causeType) || [], type);
}

export { hasConsequences, isConsequence, isQueuedBy, mayBeOfUser };
