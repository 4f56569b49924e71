'use strict';
// The figures of an evaluation as the tables of docs/evaluation.md, each between two marks of its own: what is there is replaced.

const { LOOKS } = require('../../list/patterns/table.js');
const { withoutCommands } = require('../../common/shown.js');
const { figuresOf, sumOf, together, troublesOf, EFFECTS } = require('./figures.js');
const { isQuiet } = require('./lines.js');

/**
 * @typedef {import('./types').Figures} Figures
 * @typedef {import('./types').Line} Line
 * @typedef {import('./types').ReplayFigures} ReplayFigures
 * @typedef {import('./types').Trouble} Trouble
 */

const KINDS = {
  element: 'an element, by its id', handler: 'a handler', global: 'a global variable', field: 'what a user puts into a field', tree: "the page's tree",
  module: 'a variable of a module', object: 'a property of an object', closure: 'a variable of a closure',
};
const MOST_TOLD = 20;
const LONGEST_TOLD = 160;

/**
 * A text of a page as it is in a cell of Markdown: it is no mark-up, no tag, and ends no cell.
 * @param {string} text
 */
const told = (text, longest = LONGEST_TOLD) => withoutCommands(String(text).length > longest ? `${String(text).slice(0, longest)}…` : text)
  .replace(/[&<>|`*[\]\\~$]/g, (sign) => `&#${sign.codePointAt(0)};`);

/** @param {(string|number)[]} cells */
const row = (cells) => `| ${cells.join(' | ')} |`;
/**
 * @param {string[]} head
 * @param {(string|number)[][]} rows
 */
const tableOf = (head, rows) => [row(head), `|${'---|'.repeat(head.length)}`, ...rows.map(row)].join('\n');
/** @param {number} number */
const whole = (number) => Math.round(number).toLocaleString('en-GB');
/**
 * @param {number} part
 * @param {number} all
 */
const percent = (part, all) => `${all ? Math.round((100 * part) / all) : 0} %`;
/**
 * @param {number} part
 * @param {number} all
 */
const of = (part, all) => `${whole(part)} of ${whole(all)}`;
/** @param {number} number */
const seconds = (number) => number.toFixed(2);

/**
 * A page by its package and its file.
 * @param {{page: string, package: string}} one
 */
const nameOf = ({ page, package: name }) => told(`${name}, ${page.split('/').slice(-2).join('/')}`);

/** @param {Figures} one */
function rowOfPage(one) {
  const { actions, accesses, races, groups, problems, objects, again, replay, loads, program } = one;
  const turned = replay.tried ? `${of(replay.turned, replay.tried)}, ${replay.differ}` : '';
  return [nameOf(one), ...[actions, accesses, races, groups, problems, objects].map(whole), problems && again !== null ? of(again, problems) : '', turned,
    loads ? `${seconds(loads.without)}, ${seconds(loads.with)}` : '', program ? `${seconds(program.seconds)}, ${whole(program.megabytes)}` : ''];
}

const PAGES_HEAD = ['Page', 'Actions', 'Accesses', 'Races', 'Groups', 'Problems', 'Only at objects and closures', 'Again', 'Reversed, differ', 'Load without, with (s)', 'Analyzer (s, MB)'];

/**
 * What is summed up: its name, its value of a page, how it is printed, and whether it is a measure that has no sum.
 * @type {[name: string, value: (one: Figures) => number|null|undefined, tell: (number: number) => string, isNoSum?: boolean][]}
 */
const MEASURES = [
  ['actions', ({ actions }) => actions, whole],
  ['accesses', ({ accesses }) => accesses, whole],
  ['races', ({ races }) => races, whole],
  ['groups', ({ groups }) => groups, whole],
  ['problems', ({ problems }) => problems, whole],
  ['lines of the list', ({ lines }) => lines, whole],
  ['problems only at objects and closures', ({ objects }) => objects, whole],
  ['problems whose name came again', ({ again }) => again, whole],
  ['load without the recorder (s)', ({ loads }) => loads?.without, seconds, true],
  ['load with it (s)', ({ loads }) => loads?.with, seconds, true],
  ['how many times as long', ({ loads }) => loads?.times, seconds, true],
  ["the analyzer's processor time (s)", ({ program }) => program?.seconds, seconds],
  ["the analyzer's memory (MB)", ({ program }) => program?.megabytes, whole, true],
];

/** @param {Figures[]} figures */
function sumsTable(figures) {
  const rows = MEASURES.flatMap(([name, value, tell, isNoSum]) => {
    const sum = sumOf(figures.map((one) => ({ page: nameOf(one), value: value(one) })));
    return sum ? [[name, tell(sum.median), sum.mean < 100 ? sum.mean.toFixed(1) : tell(sum.mean), `${tell(sum.most)} (${sum.page})`, isNoSum ? '' : tell(sum.sum)]] : [];
  });
  return tableOf(['Of a page', 'Median', 'Mean', 'Most', 'Of all'], rows);
}

/**
 * The pages by the kind of their packages.
 * @param {Figures[]} figures
 */
function packagesTable(figures) {
  const kinds = [...new Set(figures.map(({ kind }) => kind))].sort();
  const rows = kinds.map((kind) => {
    const own = figures.filter((one) => one.kind === kind);
    const sum = (/** @type {(one: Figures) => number} */ what) => own.reduce((total, one) => total + what(one), 0);
    return [kind, own.length, own.filter(({ problems }) => problems).length, whole(sum(({ races }) => races)), whole(sum(({ problems }) => problems)),
      sum(({ replay }) => replay.tried), sum(({ replay }) => replay.turned), sum(({ replay }) => replay.differ)];
  });
  return tableOf(['Pages of', 'Pages', 'With a problem', 'Races', 'Problems', 'Tried', 'Reversed', 'Differ'], rows);
}

/**
 * A table of counts by their names, in a given order.
 * @param {string} head
 * @param {ReturnType<typeof together>} counts
 * @param {{[name: string]: string}} names
 */
function countsTable(head, counts, names) {
  const all = Object.values(counts).reduce((sum, { count }) => sum + count, 0);
  const rows = Object.entries(names).filter(([name]) => counts[name]).map(([name, words]) => [words, whole(counts[name].count), percent(counts[name].count, all), counts[name].pages]);
  return tableOf([head, 'Problems', 'Share', 'Pages'], rows);
}

/** @param {Figures[]} figures */
const looksTable = (figures) => countsTable('Pattern', together(figures, ({ looks }) => looks), Object.fromEntries(Object.values(LOOKS).map(({ name }) => [name, `\`${name}\``])));
/** @param {Figures[]} figures */
const kindsTable = (figures) => countsTable('At', together(figures, ({ kinds }) => kinds), KINDS);

/** @param {Figures[]} figures */
function replaysTable(figures) {
  const sum = (/** @type {(one: ReplayFigures) => number} */ what) => figures.reduce((total, { replay }) => total + what(replay), 0);
  const tried = sum((one) => one.tried);
  const turned = sum((one) => one.turned);
  const effects = together(figures, ({ replay }) => replay.effects);
  const whys = Object.entries(together(figures, ({ replay }) => replay.whys)).sort(([, a], [, b]) => b.count - a.count);
  return tableOf(['Run again in the other order', 'Problems', 'Share'], [
    ['tried', whole(tried), ''],
    ['reversed', whole(turned), percent(turned, tried)],
    ['reversed, and the analyzer lists the two in the other order', whole(sum((one) => one.listed)), percent(sum((one) => one.listed), turned)],
    ['differs', whole(sum((one) => one.differ)), percent(sum((one) => one.differ), turned)],
    ...EFFECTS.filter((name) => effects[name]).map((name) => [`by its worst effect: ${name}`, whole(effects[name].count), percent(effects[name].count, turned)]),
    ['no difference', whole(sum((one) => one.same)), percent(sum((one) => one.same), turned)],
    ['of these: a difference that is unstable or due to the delay alone', whole(sum((one) => one.apart)), percent(sum((one) => one.apart), turned)],
    ['not reversed', whole(sum((one) => one.not)), percent(sum((one) => one.not), tried)],
    ...whys.map(([why, { count }]) => [`not reversed: ${why}`, whole(count), percent(count, tried)]),
  ]);
}

/**
 * Some lines of a list, and how many more there are.
 * @param {Trouble[]} troubles
 */
function listed(troubles) {
  const lines = troubles.slice(0, MOST_TOLD).map(({ page, run, text }) => `- ${told(page)}${run ? `, recording ${run}` : ''}: ${told(text)}`);
  return troubles.length > MOST_TOLD ? [...lines, `- and ${troubles.length - MOST_TOLD} more`] : lines;
}

/** @param {Line[]} lines */
function troublesText(lines) {
  const { failed, nothing, alone, limits, replays } = troublesOf(lines);
  const part = (/** @type {string} */ words, /** @type {Trouble[]} */ some) => [`${words}: ${some.length || 'none'}.`, ...some.length ? [listed(some).join('\n')] : []];
  return [
    ...part('Pages at which the evaluation failed', failed), ...part('Recordings that end with nothing', nothing),
    ...part('Errors of a page that come only with the recorder', alone), ...part('Limits reached', limits), ...part('Replays that ended early', replays),
  ].join('\n\n');
}

/**
 * How and when it was recorded; whether the machine was quiet decides what it is worth.
 * @param {Line[]} lines
 * @param {Figures[]} figures
 */
function recordedText(lines, figures) {
  const loads = lines.flatMap(({ machine }) => machine.loads);
  const processors = Math.max(...lines.map(({ machine }) => machine.processors));
  const busy = lines.filter((line) => !isQuiet(line)).length;
  const quiet = busy ? ` **With other work on the machine: ${of(busy, lines.length)}; fewer of their races could be reversed.**` : '';
  const timed = figures.filter((one) => one.loads).length;
  const days = [...new Set(lines.map(({ began }) => began.slice(0, 10)))].sort();
  const browsers = [...new Set(lines.map(({ machine }) => machine.chromium))].join(', ');
  const lanes = Math.max(...lines.map(({ machine }) => machine.sideBySide));
  const packages = new Set(figures.map((one) => one.package)).size;
  return `${whole(figures.length)} pages of ${packages} packages, recorded ${days[0]}${days.length > 1 ? ` to ${days[days.length - 1]}` : ''} with ${told(browsers)}, `
    + `up to ${lanes} at once, on ${processors} processors at a load of ${Math.min(...loads).toFixed(1)} to ${Math.max(...loads).toFixed(1)}.${quiet} `
    + `Loads were timed for ${of(timed, figures.length)}. `
    + `With at least one problem: ${of(figures.filter(({ problems }) => problems).length, figures.length)}.`;
}

/**
 * The text between each pair of marks.
 * @param {Line[]} lines
 */
function tablesOf(lines) {
  const figures = lines.flatMap((line) => figuresOf(line) || []).sort((a, b) => (a.page < b.page ? -1 : 1));
  if (!figures.length) throw new Error('no page was recorded');
  return {
    recorded: recordedText(lines, figures), sums: sumsTable(figures), packages: packagesTable(figures), looks: looksTable(figures), kinds: kindsTable(figures), replays: replaysTable(figures),
    troubles: troublesText(lines), pages: tableOf(PAGES_HEAD, figures.map(rowOfPage)),
  };
}

/**
 * @param {string} name
 * @param {string} end
 */
const markOf = (name, end) => `<!-- ${name}: ${end} -->`;

/**
 * Where the marks of a text are in a document, or null.
 * @param {string} document
 * @param {string} name
 */
function marksIn(document, name) {
  const [begin, end] = ['begin', 'end'].map((one) => document.indexOf(markOf(name, one)));
  return begin < 0 || end < begin ? null : { begin, end };
}

/**
 * Documents with texts between their marks; nothing else of them changes. Each text has its marks in one of the documents.
 * @param {string[]} documents
 * @param {{[name: string]: string}} texts by the names of their marks
 */
function withTexts(documents, texts) {
  const renewed = [...documents];
  for (const [name, own] of Object.entries(texts)) {
    const k = renewed.findIndex((one) => marksIn(one, name));
    const marks = k < 0 ? null : marksIn(renewed[k], name);
    if (!marks) throw new Error(`no marks in the document: ${markOf(name, 'begin')} and ${markOf(name, 'end')}`);
    const { begin, end } = marks;
    renewed[k] = `${renewed[k].slice(0, begin)}${markOf(name, 'begin')}\n\n${own}\n\n${renewed[k].slice(end)}`;
  }
  return renewed;
}

module.exports = { tablesOf, withTexts, told, tableOf };
