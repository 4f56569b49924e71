// Draws the origins of actions, and why two of them are ordered. Why one action happens before another.

import { make } from './elements.js';
import { model, races, wordsOf, originsAt } from './model.js';

/** Levels that are drawn at once, and actions: a longer origin is no help to a reader. */
const DEEPEST = 6;
const MOST_ORIGINS = 400;

/** @typedef {import('./model.js').Race} Race */

/**
 * All actions from which one comes, over the notes of the trace: the nearest first. Called by picture.js.
 * @param {number} action
 */
function originsOf(action) {
  const seen = new Map([[action, 0]]);
  const queue = [action];
  for (let k = 0; k < queue.length && seen.size < MOST_ORIGINS; k++) {
    for (const { from } of originsAt(queue[k])) {
      if (seen.has(from)) continue;
      seen.set(from, queue[k]);
      queue.push(from);
    }
  }
  return seen;
}

/**
 * From what an action comes, as nested lists, so many levels deep.
 * Called by picture.js.
 * @param {number} action
 * @param {number} depth
 */
function originList(action, depth = 0) {
  const list = make('ul', { class: 'origins' });
  for (const { word, from } of originsAt(action)) {
    const item = make('li', {}, make('em', {}, `${word} `), `${wordsOf(from)} `, make('small', {}, `(action ${from})`));
    if (depth < DEEPEST) item.append(originList(from, depth + 1));
    list.append(item);
  }
  return list;
}

// ---- why two actions are ordered

/**
 * The links that the program printed, by the action to which they lead.
 * @type {Map<number, {from: number, rule: number}[]>}
 */
const linksInto = new Map();
model.links.forEach(([from, to, rule]) => {
  const list = linksInto.get(to);
  if (list) list.push({ from, rule });
  else linksInto.set(to, [{ from, rule }]);
});
/** The first race of each pair of actions. */
const racesOfPair = new Map([...races].reverse().map((race) => [race.actions.join(' '), race]));

/**
 * The steps from one action to another over links that the program printed, or null if these do not lead there.
 * @param {number} from
 * @param {number} to
 */
function stepsBetween(from, to) {
  /** @type {Map<number, {action: number, rule: number}|null>} */
  const next = new Map([[to, null]]);
  const queue = [to];
  for (let k = 0; k < queue.length && !next.has(from); k++) {
    for (const link of linksInto.get(queue[k]) || []) {
      if (next.has(link.from)) continue;
      next.set(link.from, { action: queue[k], rule: link.rule });
      queue.push(link.from);
    }
  }
  if (!next.has(from)) return null;
  const steps = [];
  for (let step = next.get(from); step; step = next.get(step.action)) steps.push(step);
  return steps;
}

/**
 * The steps of a path from one action to the other, each with its rule in words.
 * @param {{action: number, rule: number}[]} steps
 */
function stepList(steps) {
  const list = make('ol', { class: 'steps' });
  for (const { action, rule } of steps) {
    const why = model.rules[rule] ? `rule ${rule}: ${model.rules[rule]}` : `rule ${rule}`;
    list.append(make('li', {}, `${wordsOf(action)} `, make('small', {}, `(action ${action}) by ${why}`)));
  }
  return list;
}

/**
 * What is known of two actions, the earlier one first. Only the analyzer decides what is ordered: for a pair about which it was not asked, the box has the
 * command. Called by picture.js.
 * @param {number} from
 * @param {number} to
 */
function pairBox(from, to) {
  const both = `action ${from} and action ${to}`;
  const race = racesOfPair.get(`${from} ${to}`);
  if (race) return make('p', {}, `Nothing orders ${both}: they race on "${race.location}".`);
  const steps = stepsBetween(from, to);
  if (steps) return make('div', {}, make('p', {}, `From action ${from} these steps lead to action ${to}:`), stepList(steps));
  const box = make('div', {}, make('p', {}, `This page does not contain whether something orders ${both}. This command prints it:`));
  box.append(make('pre', { class: 'question' }, `${model.command} --why ${from} ${to}`));
  return box;
}

/**
 * The box that says from what both actions come, and on request by which steps one is after the other.
 * Called by races.js.
 * @param {Race} race
 */
function whyBox(race) {
  const box = make('section', { class: 'why' }, make('h4', {}, 'Where the two come from'));
  const columns = make('div', { class: 'columns' });
  race.actions.forEach((action, k) => {
    const column = make('div', {}, make('p', { class: k ? 'second' : 'first' }, `Action ${action}, line ${race.lines[k]} of the trace: ${wordsOf(action)}`));
    column.append(originList(action));
    columns.append(column);
  });
  const { common } = race;
  const told = common === null
    ? 'Nothing in the recording requested both.'
    : `Both come from action ${common}: ${wordsOf(common)}. After that, nothing orders the two.`;
  box.append(columns, make('p', {}, told));
  box.append(waysFrom(common === null ? 0 : common, race.actions));
  return box;
}

/**
 * The ways that lead from a common action to the two, if the program was asked for them.
 * @param {number} common
 * @param {[number, number]} actions
 */
function waysFrom(common, actions) {
  const columns = make('div', { class: 'columns' });
  actions.forEach((action, k) => {
    const steps = action === common ? null : stepsBetween(common, action);
    if (!steps) return;
    columns.append(make('div', {}, make('p', { class: k ? 'second' : 'first' }, `From action ${common} to action ${action}:`), stepList(steps)));
  });
  return columns;
}

export { originsOf, originList, pairBox, whyBox };
