'use strict';
// Requests that may change something on a server: each run of a replay sends them again. By the HTTP method: POST, PUT, DELETE and others may, GET and HEAD may
// not. What keeps er_page from replaying by itself: ../replay-by-itself.js.

const { withoutCredentials } = require('../common/address.js');
const { ORIGIN } = require('./folder.js');
const { LocalServer } = require('./local-server.js');

/** Methods that change nothing at a server (safe ones of HTTP); a GET that a server takes for a change is not known here. */
const READS = new Set(['GET', 'HEAD', 'OPTIONS', 'TRACE']);

/**
 * Whether a request may change something, by its method. Called by browser/responses/changes-guard.js.
 * @param {string} method
 */
const mayChange = (method) => !READS.has(method.toUpperCase());

/**
 * Whether an address is one of this machine: a file of the folder that is served, or a web server here. Called by local-network.js and recording/session.js.
 * @param {string} address
 */
function isOfThisMachine(address) {
  return address === ORIGIN || address.startsWith(`${ORIGIN}/`) || new LocalServer().has(address.replace(/^https:/, 'http:'));
}

/**
 * The requests of a run that may have changed something, each once. Called by replay-command.js and replay/runs.js.
 * @param {string[]} asked `METHOD ADDRESS`
 * @param {{has: (address: string) => boolean}|null} [folder] the served one
 * @returns {{text: string, isForeign: boolean}[]} foreign if a server got it, not the served folder
 */
function changing(asked, folder = null) {
  const changed = [...new Set(asked)].filter((one) => mayChange(one.split(' ')[0]));
  return changed.map((text) => ({ text, isForeign: !folder?.has(text.slice(text.indexOf(' ') + 1)) }));
}

/**
 * A request as it is listed. Called by browser/responses/changes-guard.js, browser/responses/keep-answers.js and browser/responses/network-log.js.
 * @param {{method: string, url: string}} request
 */
const requestText = ({ method, url }) => `${method} ${withoutCredentials(url)}`;

module.exports = { changing, mayChange, isOfThisMachine, requestText };
