'use strict';
/* eslint-env browser */
// The state of a page at the end of a run, as its user and its author find it. Its DOM as lines of text, its form fields, storage and global variables, and a
// screenshot.

const { within } = require('../../common/time.js');

/** @typedef {import('../../recording/recorder.js').Recorder} Recorder */
/** @typedef {{[name: string]: string}} Values by their names in words */
/** @typedef {{whole: string, small: string}} Picture a PNG, and a smaller WebP, in base64 */
/** @typedef {{lines: string[], ids: string[], fields: Values, storage: Values, title: string, hash: string, focus: string}} Shown what a page shows */
/**
 * @typedef {Shown & {isKnown: boolean, errors: string[], consoleErrors: string[], dialogs: string[], requests: string[], isLoaded: boolean, variables: Values,
 *   picture: Picture|null}} End
 */

const LONGEST = 8000;
const SMALL = 0.5;

// The functions down to LOOK run in the page, in a world of their own. Their texts are sent together.

const cut = (/** @type {unknown} */ text) => String(text).slice(0, 2000);

/** The values and states of fields, by their names in words. */
function fieldsOfPage() {
  /** @type {Values} */
  const fields = {};
  /** @type {{[name: string]: number}} */
  const counts = {};
  /** @type {NodeListOf<HTMLInputElement>} */
  const all = document.querySelectorAll('input,textarea,select');
  all.forEach((field) => {
    if (field.type === 'hidden' || field.type === 'password') return;
    const name = field.localName + (field.id ? `#${field.id}` : field.name ? `[name=${field.name}]` : '');
    counts[name] = (counts[name] || 0) + 1;
    const key = counts[name] > 1 ? `${name} (${counts[name]})` : name;
    fields[`value of ${key}`] = cut(field.value);
    if (field.type === 'checkbox' || field.type === 'radio') fields[`checked of ${key}`] = String(field.checked);
    if (field.disabled) fields[`disabled of ${key}`] = 'true';
  });
  document.querySelectorAll('button:disabled').forEach((button) => {
    fields[`disabled of button${button.id ? `#${button.id}` : ` ${(button.textContent || '').trim()}`}`] = 'true';
  });
  return fields;
}

/** Runs in the page: the items of its storages, and its cookies. */
function storageOfPage() {
  /** @type {Values} */
  const storage = {};
  try {
    for (const [name, area] of Object.entries({ localStorage, sessionStorage })) {
      for (let k = 0; k < area.length; k++) storage[`${name}.${area.key(k)}`] = cut(area.getItem(area.key(k) || ''));
    }
    if (document.cookie) storage['document.cookie'] = cut(document.cookie);
  } catch {
    // a page that is not allowed to use storage
  }
  return storage;
}

/** @param {HTMLElement|null|undefined} body */
const linesOfBody = (body) => (body ? body.innerText : '').split('\n').map((line) => line.trim()).filter(Boolean);

/**
 * The lines of text in a frame; none of one of another origin.
 * @param {HTMLIFrameElement|HTMLFrameElement} frame
 */
function linesOfFrame(frame) {
  try {
    return linesOfBody(frame.contentDocument?.body);
  } catch {
    return []; // a frame of another origin
  }
}

/**
 * Runs in the page: what its user can see and enter, as lines and values.
 * @returns {Shown}
 */
function look() {
  /** @type {NodeListOf<HTMLIFrameElement|HTMLFrameElement>} */
  const found = document.querySelectorAll('iframe,frame');
  const frames = [...found].flatMap(linesOfFrame);
  const { activeElement: focused } = document;
  return {
    lines: [...linesOfBody(document.body), ...frames].slice(0, 5000).map(cut),
    ids: [...document.querySelectorAll('[id]')].map((element) => element.id).slice(0, 20000),
    fields: fieldsOfPage(),
    storage: storageOfPage(),
    title: cut(document.title),
    hash: location.hash,
    focus: focused ? focused.localName + (focused.id ? `#${focused.id}` : '') : '',
  };
}

const LOOK = `(() => { const cut = ${cut}; const linesOfBody = ${linesOfBody}; ${fieldsOfPage} ${storageOfPage} ${linesOfFrame} ${look} return look(); })()`;

// The functions down to readingOf run in the page's own world, and call nothing of the page.

/**
 * Shows anything except an object; null for that.
 * @param {unknown} value
 */
function showPlain(value) {
  if (value === null || value === undefined || ['boolean', 'number', 'bigint', 'symbol'].includes(typeof value)) return String(value);
  if (typeof value === 'string') return JSON.stringify(value.slice(0, 500));
  return typeof value === 'function' ? 'a function' : null;
}

/**
 * Shows a node of a document; null for another object.
 * @param {unknown} value
 */
function showNode(value) {
  try {
    const { nodeType, nodeName, id } = /** @type {Element} */ (value);
    if (typeof nodeType !== 'number' || typeof nodeName !== 'string') return null;
    return `<${nodeName.toLowerCase()}${id ? ` id=${id}` : ''}>`;
  } catch {
    return 'an object';
  }
}

/**
 * Runs in the page: a value as text, to a depth of three objects, and without any call of the page's code.
 * @param {unknown} value
 * @param {unknown[]} seen
 * @returns {string}
 */
function showValue(value, seen, depth = 0) {
  const plain = showPlain(value) ?? showNode(value);
  if (plain !== null) return plain;
  if (depth > 2 || seen.includes(value)) return 'an object';
  seen.push(value);
  const kind = Object.prototype.toString.call(value).slice(8, -1);
  if (kind !== 'Object' && kind !== 'Array') return `a ${kind}`;
  const parts = Object.keys(/** @type {object} */ (value)).slice(0, 40).map((key) => {
    const descriptor = Object.getOwnPropertyDescriptor(value, key);
    const shown = descriptor && 'value' in descriptor ? showValue(descriptor.value, seen, depth + 1) : 'a getter';
    return kind === 'Array' ? shown : `${key}: ${shown}`;
  });
  return kind === 'Array' ? `[${parts.join(', ')}]` : `{${parts.join(', ')}}`;
}

/**
 * The value of a global variable; `undefined` if it is a getter, or there is none. A `let` at the top of a script is not a property of the window.
 * @param {string} name
 */
function valueOf(name) {
  const descriptor = Object.getOwnPropertyDescriptor(window, name);
  if (descriptor) return descriptor.value;
  return /^[A-Za-z_$][\w$]*$/.test(name) ? (0, eval)(`typeof ${name} === 'undefined' ? undefined : ${name}`) : undefined;
}

/**
 * Runs in the page: the values of global variables by their names.
 * @param {string[]} names
 */
function readVariables(names) {
  /** @type {Values} */
  const values = {};
  for (const name of names) {
    try {
      values[name] = showValue(valueOf(name), []).slice(0, 3000);
    } catch {
      // a variable that is not initialized yet
    }
  }
  return values;
}

const readingOf = (/** @type {string[]} */ names) => `(() => { ${showPlain} ${showNode} ${showValue} ${valueOf} ${readVariables} return readVariables(${JSON.stringify(names)}); })()`;

// ---- the driver's side

/**
 * The names of the page's own variables that its trace contains.
 * @param {Recorder} recorder
 */
function variablesIn(recorder) {
  /** @type {Set<string>} */
  const names = new Set();
  for (const { text } of recorder.intake.entries) {
    const found = /^[rw] var 0 (\S+)$/.exec(text);
    if (found && !/^(document\.cookie|(local|session)Storage\.)/.test(found[1])) names.add(decodeURIComponent(found[1].replace(/%(?![0-9A-F]{2})/g, '%25')));
  }
  return [...names];
}

/** A caret blinks. */
const HIDE_CARET = `document.documentElement && (() => {
  const style = document.createElement('style');
  style.textContent = '*{caret-color:transparent!important}';
  document.documentElement.append(style);
})()`;

/**
 * Takes a screenshot (PNG) of what a user sees at the end, and a small one for the view. The caret is hidden, as it blinks.
 * @param {import('../../browser/tab.js').Tab} tab
 * @returns {Promise<Picture>}
 */
async function takePicture(tab) {
  await tab.evaluateApart(HIDE_CARET);
  const { cssVisualViewport: { pageX, pageY, clientWidth: width, clientHeight: height } } = await tab.send('Page.getLayoutMetrics');
  const { data: whole } = await tab.send('Page.captureScreenshot', { format: 'png' });
  const clip = { x: pageX, y: pageY, width, height, scale: SMALL };
  const { data: small } = await tab.send('Page.captureScreenshot', { format: 'webp', quality: 60, clip });
  return { whole, small };
}

/**
 * A page that does not answer in time, or has gone, has no state.
 * @type {<T>(answer: Promise<T>) => Promise<T|null>}
 */
const orNull = (answer) => within(answer.catch(() => null), LONGEST, null);

/**
 * The end of a run that is over. Called by replay/runs.js.
 * @param {Recorder} recorder
 * @returns {Promise<End>}
 */
async function takeEnd(recorder) {
  const { tab, responses, errors, consoleErrors, dialogs, isLoaded } = recorder;
  const empty = { lines: [], ids: [], fields: {}, storage: {}, title: '', hash: '', focus: '' };
  const shown = tab ? await orNull(tab.evaluateApart(LOOK)) : null;
  const values = tab && shown ? await orNull(tab.evaluate(readingOf(variablesIn(recorder)))) : null;
  const picture = tab && shown ? await orNull(takePicture(tab)) : null;
  const requests = responses ? responses.asked : [];
  return { isKnown: shown !== null, errors, consoleErrors, dialogs, requests, isLoaded, ...(shown || empty), variables: values || {}, picture };
}

module.exports = { takeEnd };
