'use strict';
// The table of docs/evaluation.md: the goals that the applications are measured by, and how far they are reached.

const { tableOf } = require('../corpus/tables.js');
const { bugNames, linesOfBug } = require('./confirmed.js');
const { timesOf } = require('./times.js');

/**
 * @typedef {import('./types').DoneLine} DoneLine
 * @typedef {import('./types').Judgements} Judgements
 */

const MOST_IMPOSSIBLE = 0.05;
const MOST_TIMES = 2.5;
const MOST_SECONDS = 60;
const RECORDINGS = ['first', 'second'];

/** @param {boolean} isReached @param {string} words */
const answer = (isReached, words) => `${isReached ? 'yes' : 'no'}: ${words}`;
/** @param {number} part @param {number} all */
const percent = (part, all) => `${all ? Math.round((100 * part) / all) : 0} %`;
/** @param {number} number */
const whole = (number) => Math.round(number).toLocaleString('en-GB');

/** @param {DoneLine[]} done */
function ofEnds(done) {
  const runs = done.flatMap((line) => line.runs);
  const ended = runs.filter(({ figures }) => figures).length;
  return answer(ended === runs.length, `${ended} of ${runs.length}`);
}

/** @param {Judgements} judgements */
function ofImpossible({ problems }) {
  const judged = problems.filter(({ judgement }) => judgement);
  const impossible = judged.filter(({ judgement }) => judgement === 'impossible').length;
  const words = `${impossible} of ${judged.length} that were judged (${percent(impossible, judged.length)}), in lists of the time of the draw`;
  return answer(impossible <= MOST_IMPOSSIBLE * judged.length, words);
}

/**
 * In how many of the lists of one recording the bugs are in the first section, and where the others are.
 * @param {DoneLine[]} done
 * @param {number} k of the recording
 */
function bugsOf(done, k) {
  const names = bugNames();
  const others = names.filter((name) => linesOfBug(name, done)[k]?.section !== 1);
  const rest = others.map((name) => `${name}: ${linesOfBug(name, done)[k] ? `section ${linesOfBug(name, done)[k]?.section}` : 'no line'}`).join('; ');
  return { isAll: !others.length, words: `${names.length - others.length} of ${names.length} in the ${RECORDINGS[k]} recordings${rest ? ` (${rest})` : ''}` };
}

/** @param {DoneLine[]} done */
function ofBugs(done) {
  const all = RECORDINGS.map((_, k) => bugsOf(done, k));
  return answer(all.every(({ isAll }) => isAll), all.map(({ words }) => words).join(', '));
}

/** @param {DoneLine[]} done */
function ofLoads(done) {
  const all = done.flatMap((line) => {
    const times = timesOf(line);
    return times ? [{ name: line.application, times: times.own / times.without }] : [];
  }).sort((a, b) => a.times - b.times);
  if (!all.length) return answer(false, 'none was timed');
  const within = all.filter(({ times }) => times <= MOST_TIMES).length;
  const [median, most] = [all[Math.floor((all.length - 1) / 2)], all[all.length - 1]];
  const words = `${within} of ${all.length}; ${median.times.toFixed(1)} times (median), ${most.times.toFixed(1)} at most (${most.name})`;
  return answer(within === all.length, words);
}

/** @param {DoneLine[]} done */
function ofLargest(done) {
  const [largest] = done.filter(({ runs: [{ figures }] }) => figures).sort((a, b) => Number(b.runs[0].figures?.accesses) - Number(a.runs[0].figures?.accesses));
  if (!largest) return answer(false, 'none was recorded');
  const { application, runs } = largest;
  const words = `${application} took ${runs.map(({ seconds }) => seconds.toFixed(0)).join(' and ')} seconds`;
  const { accesses = 0, races = 0 } = runs[0].figures || {};
  return answer(runs.every(({ seconds }) => seconds <= MOST_SECONDS), `${words}. Its recording has ${whole(accesses)} accesses and ${whole(races)} races`);
}

/**
 * @param {DoneLine[]} done
 * @param {Judgements} judgements
 */
function goalTable(done, judgements) {
  const loads = done.flatMap(({ machine }) => machine.loads);
  const load = loads.length ? `, on a machine at a load of ${Math.min(...loads).toFixed(1)} to ${Math.max(...loads).toFixed(1)}` : '';
  return tableOf(['Goal', `Reached, of ${done.length} applications, each recorded twice${load}`], [
    ['each recording ends, with a list and its last line', ofEnds(done)],
    ['at most 5 % of the problems cannot happen', ofImpossible(judgements)],
    ['each confirmed bug is in the first section of its list', ofBugs(done)],
    ['a load takes at most 2.5 times as long', ofLoads(done)],
    ['`er_page` of the largest one takes at most 60 seconds', ofLargest(done)],
  ]);
}

module.exports = { goalTable };
