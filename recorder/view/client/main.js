// The page of the view: lists the problems, filters and orders them. Runs in a reader's browser.

import { control, counted, foldable, make, pieces } from './elements.js';
import { lines } from './model.js';
import { lineBox } from './races.js';
import { isHarmless, rankOfVerdict } from './replays.js';

/**
 * @typedef {import('./model.js').Race} Race
 * @typedef {import('./model.js').Line} Line
 */

/** The sections of the list (list/patterns/table.js) that are closed at first. */
const CLOSED = ['late handlers that changed nothing', 'no visible difference when replayed'];

/**
 * Whether the filter shows a race: its text is compared with `searched` (model.js), the sentence and the location of a race. A reload loses it.
 * @param {Race} race
 * @param {string} kind
 * @param {string} text
 */
function matches(race, kind, text) {
  if (kind !== 'all' && race.kind !== kind) return false;
  return !text || race.searched.includes(text);
}

/** The lines of which a race matches, each with those of its groups and races. */
function filtered() {
  const kind = control('kind').value;
  const text = control('text').value.trim().toLowerCase();
  if (kind === 'all' && !text) return lines;
  return lines.flatMap((line) => {
    const groups = line.groups.flatMap((group) => {
      const races = group.races.filter((race) => matches(race, kind, text));
      return races.length || matches(group.first, kind, text) ? [{ ...group, races }] : [];
    });
    return groups.length ? [{ ...line, groups }] : [];
  });
}

/**
 * How many races a line has.
 * @param {Line} line
 */
const sizeOf = ({ groups }) => groups.reduce((sum, { size }) => sum + size, 0);
/**
 * The number of its first race in the trace.
 * @param {Line} line
 */
const firstOf = ({ groups }) => groups.reduce((least, { first }) => Math.min(least, first.number), Infinity);
/**
 * How two lines are compared in each order that a reader can choose; if they are equal, by the next one.
 * @type {{[order: string]: (a: Line, b: Line) => number}}
 */
const ORDERS = {
  verdict: (a, b) => rankOfVerdict(a) - rankOfVerdict(b) || ORDERS.looks(a, b),
  looks: (a, b) => a.order - b.order,
  size: (a, b) => sizeOf(b) - sizeOf(a) || ORDERS.trace(a, b),
  trace: (a, b) => firstOf(a) - firstOf(b),
};

/**
 * A fold of lines, if there are some.
 * @param {string} className
 * @param {Line[]} some
 * @param {(string|Node)[]} words
 */
const fold = (className, some, ...words) => (some.length ? [foldable(className, make('summary', {}, ...words), () => pieces(some, lineBox))] : []);

/**
 * The lines in pieces; at their end, folded, those without a visible difference in the other order.
 * @param {Line[]} some
 */
function piecesByVerdict(some) {
  const harmless = some.filter(isHarmless);
  const others = some.filter((line) => !isHarmless(line));
  return [...(others.length ? [pieces(others, lineBox)] : []), ...fold('harmless', harmless, `${countedProblems(harmless)} with no visible difference in the other order`)];
}

/**
 * How many problems some lines are for, and how many lines, if these are fewer.
 * @param {Line[]} some
 */
function countedProblems(some) {
  const problems = some.reduce((sum, line) => sum + line.problems.length, 0);
  const inEntries = problems > some.length ? ` in ${some.length} entr${some.length === 1 ? 'y' : 'ies'}` : '';
  return counted(problems, 'problem') + inEntries;
}

/**
 * A section of the list, with its heading.
 * @param {string} part
 * @param {Line[]} some
 */
function section(part, some) {
  const heading = [make('h2', {}, part), make('span', { class: 'size' }, countedProblems(some))];
  if (CLOSED.includes(part)) return fold('section', some, ...heading);
  return [make('section', { class: 'section' }, make('header', {}, ...heading), pieces(some, lineBox))];
}

/**
 * The lines in the order of the list, section by section.
 * @param {Line[]} some
 */
function sections(some) {
  const parts = [...new Set(some.map(({ part }) => part))];
  return parts.flatMap((part) => section(part, some.filter((line) => line.part === part)));
}

/**
 * How many lines there are, and how many groups and races they have: of a filter, those that match it and are in the page.
 * @param {Line[]} found
 */
function inWords(found) {
  const groups = found.flatMap((line) => line.groups);
  const races = groups.reduce((sum, group) => sum + (found === lines ? group.size : group.races.length), 0);
  const known = found.filter(({ isKnown }) => isKnown).length;
  const problems = `${countedProblems(found.filter(({ isKnown }) => !isKnown))}${known ? `, ${known} known` : ''}`;
  return `${problems}: ${counted(new Set(groups.map(({ number }) => number)).size, 'group')} with ${counted(races, 'race')}`;
}

/** Draws the list again: at the start, and when the reader changes the filter or the order. */
function render() {
  const found = filtered();
  const order = control('order').value;
  const fresh = found.filter(({ isKnown }) => !isKnown);
  const known = found.filter(({ isKnown }) => isKnown);
  const boxes = order === 'looks' ? sections(fresh) : piecesByVerdict([...fresh].sort(ORDERS[order]));
  control('found').textContent = inWords(found);
  control('groups').replaceChildren(...boxes, ...fold('section', known, make('h2', {}, 'known'), make('span', { class: 'size' }, counted(known.length, 'problem'))));
}

/** Called once, when the page of the view is there. */
function start() {
  ['kind', 'order'].forEach((id) => control(id).addEventListener('change', render));
  control('text').addEventListener('input', render);
  document.querySelector('form')?.addEventListener('submit', (event) => event.preventDefault());
  render();
}

export { start };
