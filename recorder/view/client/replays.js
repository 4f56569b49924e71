// Replays of races, run again in the other order: how the results are shown (displayed): their verdicts, the differences, and the ends of both runs. With
// screenshots of both runs.

import { counted, foldable, make, makeSvg } from './elements.js';
import { model, raceOf } from './model.js';

/**
 * @typedef {import('./model.js').Line} Line
 * @typedef {import('./model.js').Race} Race
 * @typedef {import('../types').ShownReplay} ShownReplay
 * @typedef {import('../types').Difference} Difference
 * @typedef {'none'|'not'|'differs'|'others'|'same'} Verdict
 */

/** What the replay of a race found, by the race's number. */
const replayOf = new Map((model.replays || []).map((replay) => [replay.race, replay]));
/** @type {{[verdict: string]: string}} */
const VERDICTS = { differs: 'turned: differs', others: 'turned: differs only by another race', same: 'turned: no visible difference', not: 'not turned' };
/** The order of lines: what differs, the worst effect first; then what could not be reversed, what was not tried, what differs only by another race, and the harmless. */
const EFFECTS = ['an uncaught error', 'a lost act', 'a lost input', 'a lost event', 'another content', 'another state'];
/** @type {{[verdict: string]: number}} */
const RANKS = { not: EFFECTS.length, none: EFFECTS.length + 1, others: EFFECTS.length + 2, same: EFFECTS.length + 3 };

/**
 * What a replay found, in one word, by which lines are sorted and marked.
 * @param {ShownReplay|undefined} replay
 * @returns {Verdict}
 */
function verdictOf(replay) {
  return replay ? replay.kind : 'none';
}

/**
 * The badge of a race that was run again, or nothing.
 * @param {ShownReplay|undefined} replay
 */
function badgesOf(replay) {
  if (!replay) return [];
  const verdict = verdictOf(replay);
  return [make('span', { class: `badge verdict ${verdict}`, title: replay.words }, VERDICTS[verdict]), ...verdict === 'differs' && replay.ownEffect ? [make('span', { class: 'badge effect' }, replay.ownEffect)] : []];
}

/**
 * Called by races.js.
 * @param {Race} race
 */
const isReplayed = ({ number }) => replayOf.has(number);

/**
 * Called by races.js.
 * @param {Race} race
 */
const verdictBadge = (race) => badgesOf(replayOf.get(race.number));

/**
 * What was found of the races of a line: the replay with the worst effect.
 * @param {Line} line
 */
function replayOfLine({ problems }) {
  const found = [...replayOf.values()].filter(({ race }) => {
    const problem = raceOf.get(race)?.problem;
    return problem && problems.includes(problem);
  });
  return found.sort((a, b) => rankOfReplay(a) - rankOfReplay(b))[0];
}

/**
 * Where a race is, if sorted by what replays found: differences first, by the kind of effect.
 * @param {ShownReplay|undefined} replay
 */
function rankOfReplay(replay) {
  const verdict = verdictOf(replay);
  return verdict === 'differs' ? EFFECTS.indexOf(replay?.ownEffect || '') : RANKS[verdict];
}

/**
 * Called by main.js.
 * @param {Line} line
 */
const rankOfVerdict = (line) => rankOfReplay(replayOfLine(line));

/**
 * Called by races.js.
 * @param {Line} line
 */
const verdictBadgeOfLine = (line) => badgesOf(replayOfLine(line));

/**
 * Called by main.js.
 * @param {Line} line
 */
const isHarmless = (line) => verdictOf(replayOfLine(line)) === 'same';

// ---- the box of a race

/**
 * The differences that a replay found, in both orders.
 * @param {Difference[]} differences
 */
function differenceTable(differences) {
  const table = make('table', { class: 'differences' }, make('tr', {}, ...['What', 'In the recorded order', 'In the other order'].map((word) => make('th', {}, word))));
  for (const { kind, subject, recorded, other } of differences) {
    const what = subject.includes(kind) ? subject : `${kind}: ${subject}`;
    table.append(make('tr', {}, make('td', {}, what), make('td', {}, recorded), make('td', {}, other)));
  }
  return table;
}

/**
 * A picture of an end, with boxes around what differs.
 * @param {string|null|undefined} data
 * @param {string} title
 * @param {[number, number, number, number][]} boxes
 */
function pictureBox(data, title, boxes) {
  const box = make('figure', { class: 'end' }, make('figcaption', {}, title));
  if (!data) {
    box.append(make('p', {}, 'No picture was taken.'));
    return box;
  }
  const marks = boxes.map(([x, y, width, height]) => makeSvg('rect', { x, y, width, height, 'vector-effect': 'non-scaling-stroke' }));
  const over = makeSvg('svg', { viewBox: '0 0 1 1', preserveAspectRatio: 'none', 'aria-hidden': 'true' }, ...marks);
  box.append(make('div', { class: 'marked' }, make('img', { src: `data:image/webp;base64,${data}`, alt: title }), over));
  return box;
}

/**
 * A table of differences that say less, closed at first.
 * @param {Difference[]|undefined} differences
 * @param {string} words
 */
function foldedTable(differences, words) {
  if (!differences?.length) return [];
  const summary = make('summary', {}, `${counted(differences.length, 'difference')} ${words}`);
  return [foldable('others', summary, () => differenceTable(differences))];
}

/** @param {string} text */
const asSentence = (text) => `${text[0].toUpperCase()}${text.slice(1)}.`;

/**
 * What a replay found of a race, as elements; none if it was not replayed. Called by races.js.
 * @param {Race} race
 */
function replayBox(race) {
  const replay = replayOf.get(race.number);
  if (!replay) return [];
  const box = make('section', { class: 'replay' }, make('h4', {}, 'Run again in the other order'));
  if (replay.verdict !== 'turned') {
    box.append(make('p', {}, asSentence(replay.words)));
    return [box];
  }
  box.append(make('p', {}, `To turn them, ${replay.means}. The two came in the other order then${replay.isListed ? ', and the analyzer lists them as a race of that run too' : ''}.`));
  [replay.note, replay.comparedAt, replay.groupWords].forEach((text) => { if (text) box.append(make('p', {}, asSentence(text))); });
  const own = replay.differences.filter(({ from }) => !from);
  if (own.length) box.append(make('p', {}, `What differs at the end (${replay.ownEffect}):`), differenceTable(own));
  else box.append(make('p', {}, `No visible difference ${replay.differences.length ? 'of its own ' : ''}was found at the end.`));
  box.append(...foldedTable(replay.differences.filter(({ from }) => from), 'that other races make, which came in the other order too'));
  box.append(...foldedTable(replay.beside, 'that no user sees'), ...foldedTable(replay.unsteady, 'by itself, in runs in which nothing was turned too'),
    ...foldedTable(replay.byDelay, 'that the delay alone makes, with the two in their recorded order'));
  const boxes = replay.differences.find(({ kind }) => kind === 'picture')?.boxes || [];
  const pictures = make('div', { class: 'columns' });
  pictures.append(pictureBox(model.recordedPicture, 'The end in the recorded order', boxes), pictureBox(replay.picture, 'The end in the other order', boxes));
  box.append(pictures, make('p', {}, 'The trace of the run in the other order, for its own view: ', make('code', {}, replay.command || replay.trace)));
  return [box];
}

export { isHarmless, isReplayed, rankOfVerdict, replayBox, verdictBadge, verdictBadgeOfLine };
