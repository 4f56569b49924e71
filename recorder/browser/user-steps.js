'use strict';
// What a user does in each step of --do and of a flow: clicks, types, presses keys, hovers, selects, uploads, scrolls, waits, ..

const path = require('node:path');
const { keepSecret } = require('../common/secrets.js');
const { sleep } = require('../common/time.js');
const { chordOf } = require('./input/keyboard.js');
const { areThere, findOption, focusAt, isSecretField, prepareField, scrollBy, whyNoTarget } = require('./input/fields.js');
const { callOf, findAll } = require('./input/selectors.js');
const { findTarget } = require('./input/targets.js');

/**
 * @typedef {import('./user.js').User} User
 * @typedef {import('./user.js').Outcome} Outcome
 * @typedef {import('../options/step.js').Step} Step
 * @typedef {import('./input/selectors.js').Where} Where
 * @typedef {Step & {where: Where}} StepAt a step that has an element
 */

/** In milliseconds: until a list has opened, and has been chosen from; until a page has scrolled. */
const OPENING = 150;
const SCROLLING = 300;
const POLL = 50;
/** What a step of a flow waits for, if the flow does not say. */
const LONGEST_WAIT = 5000;
/** The names of the protocol for those of a flow. */
const BUTTONS = new Map([['primary', 'left'], ['auxiliary', 'middle'], ['secondary', 'right'], ['back', 'back'], ['forward', 'forward']]);

/** @type {Outcome} */
const DONE = { isDone: true };
/** @type {(why: string|null) => Outcome} */
const notDone = (why) => ({ isDone: false, why });
const NO_TARGET = notDone(null);

/**
 * @param {Step} step
 * @returns {step is StepAt}
 */
const isAt = (step) => !!step.where;

/**
 * Waits until something holds, for as long as the step says. Returns whether it came.
 * @param {Step} step
 * @param {() => Promise<boolean>} holds
 */
async function comes({ given }, holds) {
  for (const until = Date.now() + (given?.timeout ?? LONGEST_WAIT); ; await sleep(POLL)) {
    if (await holds()) return true;
    if (Date.now() >= until) return false;
  }
}

/** @param {Step} step */
const seconds = ({ given }) => (given?.timeout ?? LONGEST_WAIT) / 1000;

/**
 * Where the pointer acts at a step's element, or null.
 * @param {User} user
 * @param {StepAt} step
 */
function pointOf(user, { where, given }) {
  const inside = given && given.offsetX !== undefined && given.offsetY !== undefined ? { x: Number(given.offsetX), y: Number(given.offsetY) } : null;
  return user.call(findTarget, where, inside);
}

/**
 * The steps `click` and `doubleClick`: so many clicks at the point where a user can hit the element.
 * @type {(times: number) => (user: User, step: StepAt) => Promise<Outcome>}
 */
const clicks = (times) => async (user, step) => {
  const point = await pointOf(user, step);
  if (!point) return NO_TARGET;
  await user.guarded(user.click(point, BUTTONS.get(step.given?.button || 'primary'), times));
  return DONE;
};

/**
 * The step `hover`: the pointer moves to the element, and stays there.
 * @type {(user: User, step: StepAt) => Promise<Outcome>}
 */
async function hover(user, step) {
  const point = await pointOf(user, step);
  if (!point) return NO_TARGET;
  await user.guarded(user.moveTo(point));
  return DONE;
}

/**
 * The step `type`: a click into the field, then its text, letter by letter (`User.type`). What is typed into a password field is a secret from now on.
 * @type {(user: User, step: StepAt) => Promise<Outcome>}
 */
async function type(user, step) {
  const point = await pointOf(user, step);
  if (!point) return NO_TARGET;
  if (await user.call(isSecretField, step.where)) keepSecret(step.text);
  await user.guarded(user.click(point));
  await user.type(step.text);
  return DONE;
}

/**
 * Chooses an option: of an open list by a click, of another one as a user does by the keys, once a click has opened it.
 * @type {(user: User, step: StepAt) => Promise<Outcome>}
 */
async function select(user, step) {
  const point = await pointOf(user, step);
  if (!point) return NO_TARGET;
  const found = await user.call(findOption, step.where, step.text);
  if (!found) return notDone('the element is no list (select) of options: use click');
  if (found.point) {
    await user.guarded(user.click(found.point));
    return DONE;
  }
  if (found.keys === null) return notDone(`the list has no option that can be chosen with this value or text: ${step.text}`);
  await user.guarded(user.click(point));
  await sleep(OPENING);
  for (const key of ['Home', ...Array(found.keys).fill('ArrowDown'), 'Enter']) await user.guarded(user.press(/** @type {import('./input/keyboard.js').Chord} */ (chordOf(key))));
  await sleep(OPENING);
  return DONE;
}

/**
 * Gives a field another value, as a flow has it.
 * @type {(user: User, step: StepAt) => Promise<Outcome>}
 */
async function change(user, step) {
  const point = await pointOf(user, step);
  if (!point) return NO_TARGET;
  if (await user.call(isSecretField, step.where)) keepSecret(step.text);
  if (await user.call(isList, step.where)) return select(user, step);
  await user.guarded(user.click(point));
  const field = await user.call(prepareField, step.where, step.text);
  if (field === 'letters' && step.text) await user.type(step.text);
  else if (field === 'letters') await user.guarded(user.press(/** @type {import('./input/keyboard.js').Chord} */ (chordOf('Delete'))));
  return field === 'letters' || field === 'done' ? DONE : notDone('the element takes no value');
}

/** Runs in the page. */
function isList(/** @type {Where} */ where) {
  return findAll(where)[0]?.localName === 'select';
}

/**
 * Chooses a file in a field for files.
 * @type {(user: User, step: StepAt) => Promise<Outcome>}
 */
async function upload(user, { where, text }) {
  const objectId = await user.tab.objectApart(callOf((/** @type {Where} */ place) => findAll(place)[0], [where])).catch(() => undefined); // the page has gone
  if (!objectId) return NO_TARGET;
  try {
    await user.tab.send('DOM.setFileInputFiles', { files: [path.resolve(text)], objectId });
    return DONE;
  } catch (fault) {
    return notDone(`the element takes no file: ${/** @type {Error} */ (fault).message}`);
  }
}

/**
 * The step `press`: a key at an element, which gets the focus without a click.
 * @type {(user: User, step: StepAt) => Promise<Outcome>}
 */
async function press(user, step) {
  const hasFocus = await user.call(focusAt, step.where);
  if (hasFocus === null) return NO_TARGET;
  if (!hasFocus) return notDone('the element takes no focus: use key:KEY');
  return pressKey(user, step.text);
}

/**
 * The step `key`: a chord (`Control+a`), a named key, or any other character, which is put in as text.
 * @type {(user: User, name: string) => Promise<Outcome>}
 */
async function pressKey(user, name) {
  const chord = chordOf(name);
  if (chord) await user.guarded(user.press(chord));
  else if ([...name].length === 1) await user.guarded(user.typeCharacter(name));
  else return notDone('there is no such key');
  return DONE;
}

/**
 * The step `scroll` of a flow: by the wheel of a mouse over the element, as a user scrolls, then the time of a smooth scroll.
 * @type {(user: User, step: Step) => Promise<Outcome>}
 */
async function scroll(user, { where, given }) {
  const found = await user.call(scrollBy, where || null, given?.x || 0, given?.y || 0);
  if (!found) return NO_TARGET;
  const { by, point } = found;
  await user.guarded(user.tab.send('Input.dispatchMouseEvent', { type: 'mouseWheel', ...point, deltaX: by.x, deltaY: by.y }).then(() => {}));
  await sleep(SCROLLING);
  return DONE;
}

/**
 * The step `waitForElement` of a flow: until so many elements are there, or its time is over.
 * @type {(user: User, step: StepAt) => Promise<Outcome>}
 */
async function waitForElement(user, step) {
  const { operator, count, visible, attributes, properties } = step.given || {};
  const wanted = { operator, count, visible, attributes, properties };
  if (await comes(step, async () => await user.call(areThere, step.where, wanted) === true)) return DONE;
  return notDone(`${operator && operator !== '>=' ? 'there are not so many elements' : await whyMissing(user, step)}`);
}

/**
 * Why an element that a step waited for did not come, in words.
 * @type {(user: User, step: StepAt) => Promise<string>}
 */
async function whyMissing(user, step) {
  const why = await user.call(whyNoTarget, step.where, seconds(step));
  return why === null || /no size/.test(why) ? `no element is as it says, after ${seconds(step)} s` : why;
}

/**
 * The step `waitForExpression` of a flow: code of the flow is evaluated in the page until it is true, or its time is over.
 * @type {(user: User, step: Step) => Promise<Outcome>}
 */
async function waitForExpression(user, step) {
  const holds = () => user.tab.evaluate(`(async () => !!(await (${step.target}\n)))()`, true).then((value) => value === true, () => false); // it throws, or the page has gone
  return await comes(step, holds) ? DONE : notDone(`the expression was not true, after ${seconds(step)} s`);
}

/** @type {(isDown: boolean) => (user: User, step: Step) => Promise<Outcome>} */
const half = (isDown) => async (user, { target }) => (await user.half(target, isDown) ? DONE : notDone('there is no such key'));

/**
 * The step `setViewport` of a flow: a new size of the window while the page runs.
 * @type {(user: User, step: Step) => Promise<Outcome>}
 */
async function setViewport({ tab }, { given }) {
  await tab.send('Emulation.setDeviceMetricsOverride', { width: given?.width, height: given?.height, deviceScaleFactor: 0, mobile: false });
  return DONE;
}

/** @type {{[kind: string]: (user: User, step: StepAt) => Promise<Outcome>}} the steps that have an element */
const AT_ELEMENT = { click: clicks(1), doubleClick: clicks(2), hover, type, select, change, upload, press, waitForElement };
/** @type {{[kind: string]: (user: User, step: Step) => Promise<Outcome>}} */
const OTHERS = {
  key: (user, { target }) => pressKey(user, target), scroll, waitForExpression, keyDown: half(true), keyUp: half(false), setViewport,
  wait: async (user, { target }) => { await sleep(Number(target)); return DONE; },
};

/**
 * Does one step, by its kind.
 * Called by user.js.
 * @param {User} user
 * @param {Step} step
 * @returns {Promise<Outcome>}
 */
async function doStep(user, step) {
  if (Object.hasOwn(OTHERS, step.kind)) return OTHERS[step.kind](user, step);
  if (isAt(step) && Object.hasOwn(AT_ELEMENT, step.kind)) return AT_ELEMENT[step.kind](user, step);
  return notDone('it loads a page: er_page does such a flow');
}

module.exports = { doStep };
