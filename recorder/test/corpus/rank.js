#!/usr/bin/env node
'use strict';
// rank.js [--write]: how well the order of the list finds what does harm, by the judged problems (judgements.json here and in ../applications), and what the
// replays of their pages found (pages.jsonl). Prints the share of harm of each pattern and the orders; with --write, into docs/measured/rank.md, and the shares
// as list/rank.js has them on standard output. Records nothing.

const { execFileSync } = require('node:child_process');
const path = require('node:path');
const { writeWhole } = require('../../common/whole-file.js');
const { LOOKS, RANKS } = require('../../list/patterns/table.js');
const { judgedOf, lastListed, listsOf, secondDraw, sharesOf, HARMFUL } = require('./judged-lists.js');
const { rankOf, sortByRank } = require('../../list/rank.js');

/**
 * @typedef {import('./judged-lists.js').Judged} Judged
 * @typedef {import('./judged-lists.js').ListOfPage} ListOfPage
 * @typedef {import('../../list/rank.js').Shares} Shares
 */
/**
 * A judged problem with its place in the list of its page, from 1.
 * @typedef {{page: string, judgement: string, place: number}} Placed
 */

const TOP = path.join(__dirname, '..', '..', '..');
const FIRST = 3;

/**
 * The names of a list's problems in the order of the ranks.
 * @param {ListOfPage} list
 * @param {boolean} hasReplays
 * @param {Shares} [shares]
 */
function ranked({ problems, replays }, hasReplays, shares) {
  const verdicts = new Map((hasReplays ? replays : []).map((one) => [one.name, one]));
  return sortByRank(problems, ({ name, look }) => {
    const found = verdicts.get(name);
    const verdict = found && { ...found, race: 0, verdict: found.verdict === 'not turned' ? found.verdict : 'turned' };
    return { rank: rankOf(look, verdict, shares), part: look.part, isKnown: false };
  }).map(({ name }) => name);
}

/** @param {Judged[]} judged @param {Map<string, ListOfPage>} lists @param {(list: ListOfPage) => string[]} orderOf @returns {Placed[]} */
function placed(judged, lists, orderOf) {
  return judged.map(({ page, name, judgement }) => {
    const list = lists.get(page);
    if (!list) throw new Error(`no list of ${page}`);
    return { page, judgement, place: orderOf(list).indexOf(name) + 1 };
  });
}

/**
 * The average precision of all judged problems in one list, by their places; of equal places the harmless ones come first.
 * @param {Placed[]} all
 */
function averagePrecision(all) {
  const isHarm = (/** @type {Placed} */ { judgement }) => Number(judgement === HARMFUL);
  const list = [...all].sort((a, b) => a.place - b.place || isHarm(a) - isHarm(b));
  let found = 0;
  const shares = list.flatMap((one, k) => (isHarm(one) ? [++found / (k + 1)] : []));
  return shares.reduce((sum, one) => sum + one, 0) / shares.length;
}

/** @param {string} name @param {Placed[]} all */
function row(name, all) {
  const first = all.filter(({ place }) => place <= FIRST);
  const harmful = all.filter(({ judgement }) => judgement === HARMFUL);
  const found = harmful.filter(({ place }) => place <= FIRST).length;
  const pages = new Set(harmful.map(({ page }) => page));
  const ahead = new Set(harmful.filter(({ place }) => place === 1).map(({ page }) => page));
  const places = harmful.map(({ place }) => place).sort((a, b) => a - b).join(', ');
  return `| ${name} | ${found} of ${first.length} | ${found} of ${harmful.length} | ${ahead.size} of ${pages.size} | ${places} | ${averagePrecision(all).toFixed(2)} |`;
}

/** @param {Shares} shares */
function shareRows(shares) {
  return Object.entries(shares).map(([kind, [harmful, judged]]) => {
    const [look, detail = ''] = kind.split(' ');
    return `| ${LOOKS[/** @type {import('../../list/patterns/table.js').LookKey} */ (look)].name}${OF_DETAIL[detail]} | ${harmful} of ${judged} |`;
  });
}

/** @type {{[detail: string]: string}} */
const OF_DETAIL = { '': '', choosing: ': a click, a change, an input, a submit', element: ': an element' };

/** @param {ListOfPage} list */
const byPattern = ({ problems }) => [...problems].sort((a, b) => RANKS.indexOf(a.look.look) - RANKS.indexOf(b.look.look)).map(({ name }) => name);

function report() {
  const commit = execFileSync('git', ['rev-parse', '--short=12', 'HEAD'], { cwd: TOP, encoding: 'utf8' }).trim();
  const lists = listsOf();
  const [pages, applications] = [judgedOf('pages'), judgedOf('applications')];
  const [ofPages, ofApplications, ofBoth] = [pages, applications, [...pages, ...applications]].map((judged) => sharesOf(judged, lists));
  const at = (/** @type {Judged[]} */ judged, /** @type {(list: ListOfPage) => string[]} */ orderOf) => placed(judged, lists, orderOf);
  const both = [...pages, ...applications];
  const last = lastListed();
  return `Written by recorder/test/corpus/rank.js at commit ${commit} on ${new Date().toISOString().slice(0, 10)}.

# The order of the list

How well the order of the list finds the problems that do harm: ${pages.length} problems of documentation pages and ${applications.length} of web applications, drawn at random from their lists and
judged by hand (\`judgements.json\` in \`recorder/test/corpus\` and \`recorder/test/applications\`). Nothing was recorded for it.

| Pattern | Harmful of judged |
|---|---|
${shareRows(ofBoth).join('\n')}

"Held out" takes the shares of the other set: that of pages for applications, that of applications for pages. Problems of applications have no replays here. A
first entry that was not drawn counts as harmless. Of the second draw (\`second-draw.json\`, 50 problems of pages) no share is taken. A row of lists as recorded has the problems that have a line in them. The average precision is that of all judged problems in one list, by their places in the lists of their pages;
of equal places the harmless ones come first.

| Order | Harmful of the judged in the first three of a list | In the first three, of the harmful | Lists with a harmful first entry, of those with a harmful one | Places of the harmful | Average precision |
|---|---|---|---|---|---|
${[row('pages, by pattern alone', at(pages, byPattern)), row('pages, held out, without replays', at(pages, (list) => ranked(list, false, ofApplications))),
    row('pages, by the shares, without replays', at(pages, (list) => ranked(list, false, ofBoth))), row('pages, by replays, then shares', at(pages, (list) => ranked(list, true, ofBoth))),
    row('applications, by pattern alone', at(applications, byPattern)), row('applications, held out', at(applications, (list) => ranked(list, false, ofPages))),
    row('applications, by the shares', at(applications, (list) => ranked(list, false, ofBoth))),
    row(`applications, as listed in their last recording: ${last.length} of the ${applications.length} have a line there`, last),
    row('second draw of pages, as listed, without replays', secondDraw()),
    row('both, by pattern alone', at(both, byPattern)), row('both, by replays where there are some, then shares', at(both, (list) => ranked(list, true, ofBoth)))].join('\n')}
`;
}

const text = report();
if (process.argv.includes('--write')) {
  writeWhole(path.join(TOP, 'docs', 'measured', 'rank.md'), text);
  console.log(JSON.stringify(sharesOf([...judgedOf('pages'), ...judgedOf('applications')], listsOf())));
} else process.stdout.write(text);
