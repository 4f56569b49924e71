'use strict';
// A web server of a folder, for this machine alone.

const http = require('node:http');
const { Folder, ORIGIN } = require('../browser/folder.js');

const NOT_FOUND = { status: 404, type: 'text/plain', body: 'not found\n' };

/**
 * Has a server listen on this machine.
 * @param {import('node:net').Server} server
 * @param {number} port 0 for a free one
 * @returns {Promise<number>} the port
 */
async function listen(server, port = 0) {
  await new Promise((resolve) => { server.listen(port, '127.0.0.1', () => resolve(undefined)); });
  return /** @type {import('node:net').AddressInfo} */ (server.address()).port;
}

/**
 * Serves a folder, or the part of it whose paths begin with `prefix`, until `close`.
 * @param {string} root
 * @returns {Promise<{addressOf: (address: string) => string, requests: string[], close: () => void}>} `addressOf` turns an address of `Folder` into the
 *   server's; `requests` are the paths that were requested
 */
async function serveFolder(root, prefix = '/') {
  const folder = new Folder(root);
  /** @param {string} address @returns {{status: number, type: string, body: string|Buffer, location?: string}} */
  const answer = (address) => (new URL(address).pathname.startsWith(prefix) ? folder.answer(address) : NOT_FOUND);
  /** @type {string[]} */
  const requests = [];
  const server = http.createServer((request, response) => {
    requests.push(request.url || '');
    const { status, type, body, location } = answer(ORIGIN + request.url);
    response.writeHead(status, { 'content-type': type, ...(location ? { location: location.replace(ORIGIN, '') } : {}) }).end(body);
  });
  const origin = `http://127.0.0.1:${await listen(server)}`;
  const close = () => {
    server.closeAllConnections();
    server.close();
  };
  return { addressOf: (address) => address.replace(ORIGIN, origin), requests, close };
}

module.exports = { listen, serveFolder };
