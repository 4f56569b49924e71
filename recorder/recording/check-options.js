'use strict';
// Which options can be combined. Options that contradict each other are refused.

const { UsageFault } = require('../options/parse.js');

/** @typedef {import('./options.js').CommandOptions} CommandOptions */

/**
 * Checks options that depend on each other. Called by options.js.
 * @param {CommandOptions} options
 */
function checkOptions(options) {
  const { attach, writesKnown, known, isReplayed, isNeverReplayed } = options;
  const isActing = options.actions.length > 0 || options.clicks > 0 || options.isRaw;
  if (attach && isActing) throw new UsageFault('--attach cannot be combined with --do, --clicks or --raw: the driver acts');
  if (writesKnown && !known) throw new UsageFault('--write-known requires --known FILE');
  if ((options.wanted.length || options.suiteTime) && !options.replayWith) throw new UsageFault('--replay and --time require --replay-with COMMAND');
  checkMany(options);
  checkFlow(options);
  if (isReplayed && isNeverReplayed) throw new UsageFault('--no-replay cannot be combined with --replay or --race');
}

/**
 * Many pages are recorded once each, several at the same time: without what needs a profile, a window or several runs.
 * @param {CommandOptions} options
 */
function checkMany({ list, sitemap, jobs, isFresh, runs, isReplayed, isLive, userDataDir, isHeaded }) {
  const isOfMany = list || sitemap;
  if (!isOfMany && (jobs || isFresh)) throw new UsageFault('--jobs and --fresh require --list FILE or --sitemap URL');
  if (list && sitemap) throw new UsageFault('--list cannot be combined with --sitemap');
  if (isOfMany && (runs > 1 || isReplayed || isLive)) throw new UsageFault('--list and --sitemap cannot be combined with --runs, --replay or --live');
  if (isOfMany && (userDataDir || isHeaded)) throw new UsageFault('--list and --sitemap cannot be combined with --user-data-dir or --headed: pages are recorded at once');
}

/**
 * A flow over several pages is recorded load by load, without what belongs to one page.
 * @param {CommandOptions} options
 */
function checkFlow({ flowOfMany, list, sitemap, runs, isReplayed, clicks, slow, isRaw, chaos, root, fallback, actions }) {
  if (!flowOfMany) return;
  const others = { '--list': list, '--sitemap': sitemap, '--runs': runs > 1, '--replay': isReplayed, '--clicks': clicks, '--slow': slow, '--raw': isRaw,
    '--chaos': chaos !== null, '--root': root, '--fallback': fallback, '--do': actions.some((act) => !('given' in act)) };
  const [wrong] = Object.entries(others).find(([, isGiven]) => isGiven) || [];
  if (wrong) throw new UsageFault(`${wrong} cannot be combined with a flow that loads several pages: ${flowOfMany}`);
}

module.exports = { checkOptions };
