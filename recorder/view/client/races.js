// The boxes of races, groups and problems.

import { badge, counted, foldable, make, pieces } from './elements.js';
import { raceOf } from './model.js';
import { whyBox } from './origins.js';
import { Picture } from './picture.js';
import { isReplayed, replayBox, verdictBadge, verdictBadgeOfLine } from './replays.js';
import { sourceBox } from './source.js';

/**
 * @typedef {import('./model.js').Race} Race
 * @typedef {import('./model.js').Group} Group
 * @typedef {import('./model.js').Line} Line
 * @typedef {import('./model.js').ShownProblem} ShownProblem
 */

/**
 * The box of one race: both places in the source, what a replay found, the lanes, and why nothing orders the two. Made when the reader opens it.
 * @param {Race} race
 */
function raceBox(race) {
  const box = make('article', { class: 'race' });
  const sources = make('div', { class: 'columns' });
  sources.append(sourceBox(race.places[0], 'Came first:'), sourceBox(race.places[1], 'Came second:'));
  box.append(sources, ...replayBox(race), new Picture(race).draw(), whyBox(race));
  box.append(make('p', { class: 'lines' }, `In the trace: lines ${race.lines.join(' and ')}, ${race.spelled}`));
  return box;
}

/**
 * A group of races, folded; inside are its first race and the others.
 * @param {Group} group
 * @param {ShownProblem|undefined} problem if the group has its words
 * @param {Line|undefined} line if the group is all of it
 */
function groupBox({ number, size, first, races }, problem = undefined, line = undefined) {
  const again = [first, ...races].find(isReplayed) || first;
  const badges = [...(problem ? lookBadges(problem, line) : []), ...(line ? verdictBadgeOfLine(line) : verdictBadge(again))];
  const summary = make('summary', {}, badge(first.kind), ...(problem ? headOf(problem) : [make('span', { class: 'sentence' }, first.words)]), ...badges,
    make('span', { class: 'size' }, counted(size, 'race')));
  return foldable('group', summary, () => {
    const box = make('div', { class: 'inside' }, ...(problem ? toldBoxes(problem) : []), raceBox(first));
    if (again !== first) box.append(make('p', { class: 'lines' }, `Another race of its group was run again: ${again.words}`), ...replayBox(again));
    const others = races.filter((race) => race !== first);
    if (others.length) box.append(otherRaces(others));
    const left = size - others.length - 1;
    if (left > 0 && races.length > others.length) box.append(make('p', { class: 'lines' }, `${counted(left, 'further race')} of group ${number} of the report ${left === 1 ? 'is' : 'are'} not shown here.`));
    return box;
  });
}

/**
 * The pattern of a problem, and whether its line is known.
 * @param {ShownProblem} problem
 * @param {Line} [line]
 */
function lookBadges({ look, rank }, line) {
  const badges = look === 'other' ? [] : [make('span', { class: `badge look rank${rank}` }, look)];
  return line?.isKnown ? [make('span', { class: 'badge look known' }, 'known'), ...badges] : badges;
}

/**
 * A line of one group is that group; one of several opens to them. Groups of its other problems have words of their own. Called by main.js.
 * @param {Line} line those of its groups that match the filter
 */
function lineBox(line) {
  const { problem, problems, groups } = line;
  if (groups.length === 1) return groupBox(groups[0], problem, line);
  const races = groups.reduce((sum, { size }) => sum + size, 0);
  const first = raceOf.get(problem.first) || groups[0].first;
  const summary = make('summary', {}, badge(first.kind), ...headOf(problem), ...lookBadges(problem, line), ...verdictBadgeOfLine(line),
    make('span', { class: 'size' }, `${counted(groups.length, 'group')}, ${counted(races, 'race')}${problems.length > 1 ? ` in ${problems.length} problems` : ''}`));
  return foldable('problem', summary, () => {
    const box = make('div', { class: 'inside' }, ...toldBoxes(problem));
    box.append(pieces(groups, (group) => groupBox(group, hasOwnWords(group, problem) ? group.problem : undefined)));
    return box;
  });
}

/**
 * Whether a group has the words of its problem: that of its first race, unless the line has them.
 * @param {Group} group
 * @param {ShownProblem} shown of the line
 */
const hasOwnWords = ({ problem, first }, shown) => problem !== shown && problem.first === first.number;

/**
 * The first line of a problem's entry in the list.
 * @param {ShownProblem} problem
 */
const headOf = ({ place, sentence }) => [make('code', { class: 'at' }, place), make('span', { class: 'sentence' }, sentence)];

/**
 * The other lines of a problem's entry in the list.
 * @param {ShownProblem} problem
 */
function toldBoxes({ name, sides, details }) {
  const rows = sides.map((side) => make('tr', {}, ...side.map((text) => make('td', {}, text))));
  const lines = details.map(([label, text]) => make('p', { class: 'detail' }, make('strong', {}, `${label}: `), text));
  return [make('table', { class: 'sides' }, ...rows), ...lines, make('p', { class: 'lines' }, `${name} (for races.known)`)];
}

/**
 * The other races of a group, closed at first.
 * @param {Race[]} others
 */
function otherRaces(others) {
  const summary = make('summary', {}, `${counted(others.length, 'more race')} of its group`);
  return foldable('others', summary, () => pieces(others, (race) => {
    const line = make('summary', {}, badge(race.kind), make('span', { class: 'sentence' }, race.words), ...verdictBadge(race));
    return foldable('one', line, () => raceBox(race));
  }));
}

export { lineBox };
