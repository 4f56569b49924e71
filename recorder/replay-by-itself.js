'use strict';
// Whether er_page replays races that nobody has requested, and for how long: only if no server gets a request again, and the page takes little time. At most
// five races, for at most a minute.

const { shown } = require('./common/shown.js');
const { programState } = require('./races/program.js');

/** @typedef {import('./recording/options.js').CommandOptions} CommandOptions */

/** How many races are replayed by themselves. */
const MOST_BY_ITSELF = 5;
/** They end after so many milliseconds, with what was found by then. */
const LONGEST_BY_ITSELF = 60000;
/** A recorded run that took longer, in milliseconds, is not replayed: each replay needs several runs that take as long. */
const LONGEST_RUN = 20000;
/** Connections over which a server gets more than a request, by the constructor that the page calls. */
const CONNECTIONS = /^(EventSource|WebSocket)$/;

/**
 * Whether a page is recorded so that its races can be replayed by themselves. Not if a person acts, or if a profile or a file changes with each run. Called by
 * page-races.js.
 * @param {CommandOptions} options
 */
function mayReplayByItself({ isReplayed, isNeverReplayed, runs, isHeaded, userDataDir, writesKnown }) {
  return !isReplayed && !isNeverReplayed && runs === 1 && !isHeaded && !userDataDir && !writesKnown && programState() === 'built';
}

/**
 * Why a recorded page is not run again by itself, in words; '' if it is. Which requests are sent again: `lacking` of browser/responses/keep-answers.js, each to
 * a server whose answer was not kept, also a GET (`isKept`, `hasKeptAnswer` in kept-answers.js). Called by page-races.js.
 * @param {import('./recording/recorder.js').Recorder} recorder
 */
function whyNotByItself({ responses, intake, startTime, endTime }) {
  const opened = intake.names.flatMap(({ kind, method = '' }) => (kind === 'request' && CONNECTIONS.test(method) ? [`a connection of ${method === 'WebSocket' ? 'a' : 'an'} ${method}`] : []));
  const again = [...new Set([...responses?.lacking || [], ...opened])];
  if (!again.length) return whyTooLong(endTime - startTime);
  const others = again.length > 1 ? `, and ${again.length - 1} more` : '';
  return `races are not replayed: each replay would send again: ${shown(again[0])}${others}; --replay does it`;
}

/**
 * Why a run is too long, in words, or ''.
 * @param {number} length in milliseconds
 */
function whyTooLong(length) {
  return length > LONGEST_RUN ? `races are not replayed: a run of the page takes ${Math.round(length / 1000)} s, and each replay needs several; --replay does it` : '';
}

module.exports = { MOST_BY_ITSELF, LONGEST_BY_ITSELF, mayReplayByItself, whyNotByItself };
