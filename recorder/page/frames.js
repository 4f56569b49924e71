// Frames (iframes, also nested ones): a frame of the same origin joins the recording and the log of the page around it, and its document gets a number. A frame
// of another origin (cross-origin) is not recorded: it has no access to its parent's recorder.

import { findItem } from './core/lists.js';
import { settings } from './core/settings.js';

/**
 * The recording of the page around a frame, or null if that is of another origin. Called by main.js.
 * @param {import('./types').PageWindow} window
 * @returns {import('./types').Recording|null}
 */
function recordingOfParent(window) {
  try {
    const parent = /** @type {import('./types').PageWindow} */ (window.parent);
    return parent !== window && parent.__er?.recording ? parent.__er.recording(settings.secret) : null;
  } catch { // another origin
    return null;
  }
}

/**
 * The element of a frame in the page around it; null if it is of another origin.
 * @param {import('./types').PageWindow} window
 */
function frameOf(window) {
  try {
    return window.frameElement;
  } catch { // another origin
    return null;
  }
}

/**
 * Called by main.js and page.js.
 * @param {import('./types').PageWindow} window
 * @param {import('./types').Recording} recording
 * @param {boolean} mayPass whether it can be the empty page that a frame shows before that of its `src`
 * @returns {number} the document number for a frame's page, or -1 if it is not recorded
 */
function numberOfFrame(window, recording, mayPass) {
  const frame = frameOf(window);
  const parentPage = frame && findItem(recording.pages, (page) => page.document === frame.ownerDocument);
  if (!frame || !parentPage) return -1;
  if (recording.contexts.length) parentPage.tree.collect('script');
  parentPage.elements.declaredNumber(frame);
  const source = parentPage.elements.has(frame, 'srcdoc') ? 'about:srcdoc' : parentPage.elements.attribute(frame, 'src');
  const isPassing = mayPass && window.location.href === 'about:blank' && !!source && source !== 'about:blank';
  return parentPage.sources.numberOfInner(frame, isPassing);
}

export { recordingOfParent, numberOfFrame };
