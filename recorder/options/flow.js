'use strict';
// A user flow that the Recorder panel of Chrome DevTools exported, as steps. The format is that of @puppeteer/replay. The JSON is validated: what no flow has
// is refused.

const fs = require('node:fs');
const path = require('node:path');
const { UsageFault } = require('./parse.js');
const { recordedWhere } = require('./selector.js');

/** @typedef {import('./step.js').Step} Step */
/**
 * @typedef {object} FlowStep a step as the file has it
 * @property {string} type
 * @property {string} [url]
 * @property {unknown} [selectors]
 * @property {unknown} [frame]
 * @property {string} [target]
 * @property {string} [value]
 * @property {string} [key]
 * @property {string} [expression]
 * @property {string} [button]
 * @property {'>='|'=='|'<='} [operator]
 * @property {number} [count]
 * @property {boolean} [visible]
 * @property {{[name: string]: string}} [attributes]
 * @property {object} [properties]
 * @property {number} [x]
 * @property {number} [y]
 * @property {number} [offsetX]
 * @property {number} [offsetY]
 * @property {number} [width]
 * @property {number} [height]
 * @property {number} [timeout] in milliseconds
 * @property {{type?: string}[]} [assertedEvents]
 */
/**
 * `page` and `viewport` are those of its start; `isOfMany`: it loads other pages.
 * @typedef {{page: string|null, viewport: {width: number, height: number}|null, steps: Step[], isOfMany: boolean}} Flow
 */

/** @type {(value: unknown) => string|null} */
const text = (value) => (typeof value === 'string' && value ? value : null);

/**
 * How each type of step becomes one of ours: which member is its target, and which its text. `at` says whether it has an element.
 * @type {{[type: string]: {at: 'always'|'maybe'|'never', target?: 'key'|'expression'|'url', text?: 'value'}}}
 */
const TYPES = {
  click: { at: 'always' }, doubleClick: { at: 'always' }, hover: { at: 'always' }, change: { at: 'always', text: 'value' }, scroll: { at: 'maybe' },
  waitForElement: { at: 'always' }, waitForExpression: { at: 'never', target: 'expression' }, keyDown: { at: 'never', target: 'key' },
  keyUp: { at: 'never', target: 'key' }, navigate: { at: 'never', target: 'url' }, setViewport: { at: 'never' },
};
const SUPPORTED = Object.keys(TYPES).join(', ');
const BUTTONS = /^(?:primary|auxiliary|secondary|back|forward)$/;

/**
 * Checks a step. Throws what is wrong.
 * @param {FlowStep} step
 */
function check({ type, target, button, width, height, timeout, operator }) {
  if (target !== undefined && target !== 'main') throw new Error(`it is in another window or a worker (${target}), which is not supported`);
  if (button !== undefined && !BUTTONS.test(button)) throw new Error(`there is no mouse button ${button}`);
  if (type === 'setViewport' && !(Number.isInteger(width) && Number.isInteger(height))) throw new Error('it has no width and height');
  if (timeout !== undefined && !(timeout >= 0)) throw new Error('its timeout is no number of milliseconds');
  if (operator !== undefined && !/^[><=]=$/.test(operator)) throw new Error(`there is no operator ${operator}`);
}

/**
 * A step of a flow as one of ours. Throws why it can't be done.
 * @param {FlowStep} given
 * @param {string} from how messages name it
 * @returns {Step}
 */
function flowStep(given, from) {
  const { type, selectors, frame } = given;
  const how = Object.hasOwn(TYPES, String(type)) ? TYPES[type] : null;
  if (!how) throw new Error(`a step of type ${JSON.stringify(type)} is not supported; delete it, or use ${SUPPORTED}`);
  check(given);
  const isAt = how.at === 'always' || (how.at === 'maybe' && selectors !== undefined);
  const where = isAt ? recordedWhere(selectors, frame) : undefined;
  const target = how.target ? text(given[how.target]) : '';
  if (target === null) throw new Error(`it has no ${how.target}`);
  const value = how.text ? given[how.text] : '';
  if (typeof value !== 'string') throw new Error(`it has no ${how.text}`);
  const first = /** @type {unknown[]} */ (selectors)?.[0];
  const words = isAt ? /** @type {string[]} */ (Array.isArray(first) ? first : [first]).join(' >>> ') : target;
  const kind = /** @type {Step['kind']} */ (type);
  return { isEarly: false, kind, target: isAt ? JSON.stringify(selectors) : target, text: value, said: words ? `${type} ${words}` : type, where, from, given };
}

/**
 * The steps of a recorded flow, checked; a fault is a UsageFault with the number of the step.
 * @param {string} name of the option
 * @param {string} file
 * @param {string} content
 * @returns {Flow}
 */
function parseFlow(name, file, content) {
  /** @type {{steps?: unknown, timeout?: number}|null} */
  let given = null;
  try {
    given = JSON.parse(content);
  } catch {
    // no JSON: it has no steps
  }
  if (!given || !Array.isArray(given.steps)) throw new UsageFault(`${name} takes a JSON file of the Recorder panel: ${file} has no steps`);
  const timeout = given.timeout === undefined ? {} : { timeout: given.timeout };
  /** @type {Flow} */
  const flow = { page: null, viewport: null, steps: [], isOfMany: false };
  given.steps.forEach((/** @type {FlowStep|null} */ one, k) => {
    try {
      addStep(flow, /** @type {FlowStep} */ ({ ...timeout, ...one }), `step ${k + 1} of ${path.basename(file)}`);
    } catch (fault) {
      throw new UsageFault(`${name}: step ${k + 1} of ${path.basename(file)}: ${/** @type {Error} */ (fault).message}`);
    }
  });
  return flow;
}

/**
 * The first page, and the size of the view before it, are those of the recording.
 * @param {Flow} flow
 * @param {FlowStep} given
 * @param {string} from
 */
function addStep(flow, given, from) {
  const step = flowStep(given, from);
  const isStart = !flow.steps.length;
  if (step.kind === 'setViewport' && isStart) flow.viewport = { width: Number(given.width), height: Number(given.height) };
  else if (step.kind === 'navigate' && isStart && flow.page === null) flow.page = step.target;
  else {
    flow.steps.push(step);
    flow.isOfMany = flow.isOfMany || step.kind === 'navigate' || leadsOn(step);
  }
}

/**
 * Whether a step leads to another page, or to another address of the page. Called by driven/flow-recorder.js.
 * @param {Pick<Step, 'given'>} step
 */
const leadsOn = ({ given }) => !!given && Array.isArray(given.assertedEvents) && given.assertedEvents.some((one) => one?.type === 'navigation');

/**
 * Reads the file of a user flow, as the browser's recorder writes it, and checks all of it before anything is recorded.
 * Called by recording/options.js.
 * @param {string} name of the option
 * @param {string} file
 */
function readFlow(name, file) {
  let content;
  try {
    content = fs.readFileSync(file, 'utf8');
  } catch (fault) {
    throw new UsageFault(`${name}: ${file} cannot be read: ${/** @type {NodeJS.ErrnoException} */ (fault).code}`);
  }
  return parseFlow(name, file, content);
}

/**
 * A step that a recording has saved. Called by recording/options.js.
 * @param {string} name of the option
 * @param {string} given
 */
function readStep(name, given) {
  try {
    return flowStep(JSON.parse(given), 'a step of the flow');
  } catch (fault) {
    throw new UsageFault(`${name}: ${/** @type {Error} */ (fault).message}`);
  }
}

module.exports = { parseFlow, readFlow, readStep, flowStep, leadsOn };
