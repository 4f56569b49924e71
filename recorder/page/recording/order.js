// Which events come before the running one: by the rules, or in each browser.

import { each, findItem, hasItem } from '../core/lists.js';

/** @typedef {import('../types').TraceEvent} TraceEvent */

/** How far the events before the running one are searched. */
const LONGEST_CHAIN = 20;

/**
 * Whether rules are known to put an event before the running one: a short search along `after`. Called by recording.js,
 * page/tasks/timers.js and page/tasks/ended-requests.js.
 * @param {TraceEvent} running
 * @param {TraceEvent} event
 */
const isBefore = (running, event) => isFound(running, event, false);

/**
 * Whether an event comes before the running one in each browser: by `isBefore`, or by the rule about timeouts, which not all versions of the format have.
 * Called by page/document/loads-in-order.js, page/events/motions.js, page/events/queued.js, page/tasks/earlier-reactions.js and page/tasks/ended-requests.js.
 * @param {TraceEvent} running
 * @param {TraceEvent} event
 */
const comesBefore = (running, event) => isFound(running, event, true);

/**
 * Whether an event is found by going back from the running one, so many steps at most: a longer chain counts as not ordered, which is safe.
 * @param {TraceEvent} running
 * @param {TraceEvent} event
 * @param {boolean} isByDelays whether the callbacks of timeouts are searched too that came earlier
 */
function isFound(running, event, isByDelays) {
  if (isInside(running, event)) return true;
  const sought = aroundEvent(event, running);
  let events = [running];
  for (let depth = 0; depth < LONGEST_CHAIN && events.length; depth++) {
    if (findItem(events, (one) => hasItem(sought, one))) return true;
    events = eventsBefore(events, isByDelays);
  }
  return false;
}

/**
 * Whether an event is another one, or in an inline dispatch of it. If that runs, such a dispatch is over, and the running piece comes after it.
 * @param {TraceEvent} around
 * @param {TraceEvent} event
 */
function isInside(around, event) {
  for (let one = /** @type {TraceEvent|undefined} */ (event); one; one = one.insideOf) {
    if (one === around) return true;
  }
  return false;
}

/**
 * An event and the events around it, from the inside to the outside (`insideOf`, `isPoint`: page/types.d.ts): what comes after one of these comes after the
 * event too. It ends before an event that the running event is in, because that event is not over. The event around a point is always added. Called by
 * `isFound`.
 * @param {TraceEvent} event
 * @param {TraceEvent} running
 */
function aroundEvent(event, running) {
  const around = [event];
  for (let one = event; one.insideOf && (one.isPoint || !isInside(one.insideOf, running)); one = one.insideOf) around[around.length] = one.insideOf;
  return around;
}

/**
 * The events directly before some others, each once, as many as are searched.
 * @param {TraceEvent[]} events
 * @param {boolean} isByDelays
 */
function eventsBefore(events, isByDelays) {
  /** @type {TraceEvent[]} */
  const before = [];
  const add = (/** @type {TraceEvent} */ event) => { if (before.length < LONGEST_CHAIN && !hasItem(before, event)) before[before.length] = event; };
  each(events, (one) => {
    each(one.after, add);
    if (isByDelays && one.earlier) each(one.earlier(), add);
  });
  return before;
}

export { comesBefore, isBefore };
