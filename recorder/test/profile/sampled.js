'use strict';
// Where the time of a CPU profile goes: the samples by groups of functions, as the DevTools protocol and Node's inspector give profiles.

/**
 * @typedef {{functionName: string, url: string, lineNumber: number, columnNumber?: number}} CallFrame lines and columns count from 0
 * @typedef {{id: number, callFrame: CallFrame, children?: number[]}} ProfileNode
 * @typedef {{nodes: ProfileNode[], samples?: number[], timeDeltas?: number[]}} Profile time in microseconds
 * @typedef {(frame: CallFrame) => string|null} Grouping the group of a function; null: that of the function which calls it
 */

const GROUP_OF_NONE = 'other';

/**
 * The milliseconds of each sampled function itself.
 * @param {Profile} profile
 * @returns {Map<number, number>} by the number of the node
 */
function ownTimes({ samples = [], timeDeltas = [] }) {
  const times = new Map();
  samples.forEach((node, k) => times.set(node, (times.get(node) || 0) + (timeDeltas[k] || 0) / 1000));
  return times;
}

/**
 * The milliseconds of each group. A function whose group is null counts to the nearest caller that has one.
 * @param {Profile} profile
 * @param {Grouping} groupOf
 * @returns {Map<string, number>}
 */
function timesByGroup(profile, groupOf) {
  const times = ownTimes(profile);
  const nodes = new Map(profile.nodes.map((node) => [node.id, node]));
  /** @type {Map<string, number>} */
  const sums = new Map();
  /** @type {[number, string][]} */
  const waiting = profile.nodes.length ? [[profile.nodes[0].id, GROUP_OF_NONE]] : [];
  for (let next = waiting.pop(); next; next = waiting.pop()) {
    const [id, outer] = next;
    const node = /** @type {ProfileNode} */ (nodes.get(id));
    const group = groupOf(node.callFrame) || outer;
    sums.set(group, (sums.get(group) || 0) + (times.get(id) || 0));
    for (const child of node.children || []) waiting.push([child, group]);
  }
  return sums;
}

/**
 * The functions with most time of their own, in a group.
 * @param {Profile} profile
 * @param {(frame: CallFrame) => boolean} isMeant
 * @param {number} most
 */
function hottest(profile, isMeant, most) {
  const times = ownTimes(profile);
  /** @type {Map<string, number>} */
  const sums = new Map();
  for (const { id, callFrame } of profile.nodes.filter((node) => isMeant(node.callFrame))) {
    const { functionName, lineNumber, columnNumber } = callFrame;
    const name = `${functionName || '(anonymous)'}:${lineNumber + 1}${columnNumber === undefined ? '' : `:${columnNumber + 1}`}`; // a module of page/ is one line
    sums.set(name, (sums.get(name) || 0) + (times.get(id) || 0));
  }
  return [...sums].sort((a, b) => b[1] - a[1]).slice(0, most);
}

module.exports = { timesByGroup, hottest, GROUP_OF_NONE };
