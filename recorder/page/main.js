// The start of the recorder in one document. It runs before any script of the page. The page sees `__er` neither in a loop over the window nor in
// `Object.keys`.

import { fixChance } from './core/chance.js';
import { each } from './core/lists.js';
import { takeNatives } from './core/natives.js';
import { settings } from './core/settings.js';
import { Object, Reflect, apply } from './core/taken.js';
import { helpersOf } from './helpers/helpers.js';
import { idleHelpers } from './helpers/idle.js';
import { Recording } from './recording/recording.js';
import { stampActions, stampOwn } from './recording/stamps.js';
import { numberOfFrame, recordingOfParent } from './frames.js';
import { Page } from './page.js';

/**
 * @typedef {import('./types').PageWindow} PageWindow
 * @typedef {import('./types').Send} Send
 */

/**
 * Takes the driver's binding away, so that no script of the page finds it.
 * @param {PageWindow} window
 * @returns {Send|null}
 */
function takeBinding(window) {
  const send = window[settings.binding];
  Reflect.deleteProperty(window, settings.binding);
  return typeof send === 'function' ? send : null;
}

/**
 * Sends texts to the driver if its binding comes later than the page: the texts wait.
 * @param {PageWindow} window
 * @returns {Send}
 */
function sendLater(window) {
  /** @type {string[]} */
  let waiting = [];
  /** @type {Send|null} */
  let send = null;
  return (text) => {
    waiting[waiting.length] = text;
    const now = send = send || takeBinding(window);
    if (now === null) return;
    const all = waiting;
    waiting = [];
    each(all, (one) => now(one));
  };
}

/**
 * Whether it is the empty page in which a window starts that a page opened. The page that comes next might have the same window, where no script of the
 * recorder runs again: a script at the start of that page (driven/opened-window.js) starts it.
 * @param {PageWindow} window
 */
function isFirstOfOpened(window) {
  return settings.isDriven && window.parent === window && !!window.opener && window.document.URL === 'about:blank';
}

/**
 * Makes the recorder of a document, and puts `__er` into its window. A frame of another origin gets helpers that record nothing.
 * @param {PageWindow} window
 * @param {Send} send
 * @param {'parser'} [maker] of what is in the document by now
 */
function startRecorder(window, send, maker) {
  const natives = takeNatives(window);
  const isTop = window.parent === window;
  if (settings.fixed) fixChance(window, settings.fixed);
  const recording = isTop ? new Recording(natives, send) : recordingOfParent(window);
  if (recording && settings.stamps) stampOwn(window, natives);
  if (recording && isTop && settings.stamps) stampActions(window, recording);
  if (recording && !isTop && !recording.contexts.length) recording.startTask();
  const number = isTop ? 0 : recording ? numberOfFrame(window, recording, true) : -1;
  if (!recording || number < 0) {
    if (recording) recording.unmarked.noteAnywhere();
    setHelpers(window, idleHelpers(), false);
    return;
  }
  const page = new Page(window, recording, number, natives);
  setHelpers(window, withRecording(helpersOf(page), recording), false);
  page.start(maker);
  // who closes a page waits for no task of it
  if (isTop && settings.isDriven) apply(natives.addEventListener, window, ['pagehide', () => recording.flush()]);
}

/**
 * The driver and the recorders of frames ask the helpers for the recording. Scripts of the page can ask too, but do not know the secret.
 * @param {object} helpers
 * @param {Recording} recording
 */
function withRecording(helpers, recording) {
  const { secret } = settings;
  return Object.defineProperty(helpers, 'recording', { value: (/** @type {unknown} */ given) => (given === secret ? recording : null) });
}

/**
 * Nobody can put other helpers in their place, which would be given the secret.
 * @param {PageWindow} window
 * @param {object} helpers
 * @param {boolean} isFirst whether others follow
 */
function setHelpers(window, helpers, isFirst) {
  Object.defineProperty(window, '__er', { value: helpers, enumerable: false, configurable: isFirst });
}

/**
 * The start in a window. In one that a page opened and that is still empty, the recorder starts once `removeHold` is called.
 * @param {PageWindow} window
 */
function begin(window) {
  const send = takeBinding(window) || (settings.isDriven ? sendLater(window) : () => {});
  if (settings.isDriven && window.__er) return; // it came as a part of the page before
  if (!isFirstOfOpened(window)) {
    startRecorder(window, send, window.document.documentElement && settings.isDriven ? 'parser' : undefined);
    return;
  }
  const helpers = idleHelpers();
  helpers.removeHold = (script) => {
    script.remove();
    startRecorder(window, send, 'parser');
  };
  setHelpers(window, helpers, true);
}

export { begin };
