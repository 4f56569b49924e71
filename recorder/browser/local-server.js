'use strict';
// Which servers are on this machine, and the requests that the recorder itself makes: source maps. A `.map` file is downloaded only from the script's own
// server.

const os = require('node:os');
const { originOf } = require('../common/address.js');

/**
 * @typedef {{status: number, type: string, body: Buffer}} Answer
 * @typedef {import('./folder.js').Folder} Folder
 */

/** Names that mean this machine on every machine. Its addresses in networks are added. */
const LOCAL_NAME = /^(?:(?:[\w-]+\.)*localhost|127(?:\.\d+){3})$/;
/** In milliseconds. */
const LONGEST_ANSWER = 2000;
/** In bytes. */
const LARGEST_ANSWER = 128 * 1024 * 1024;
const MOST_REDIRECTS = 5;

/**
 * A signal that ends a request after LONGEST_ANSWER; it keeps no process alive.
 * @param {string} address
 */
function timeout(address) {
  const controller = new AbortController();
  setTimeout(() => controller.abort(new Error(`no answer of ${address}`)), LONGEST_ANSWER).unref();
  return controller.signal;
}

const addressesOfMachine = () => Object.values(os.networkInterfaces()).flatMap((some) => some || []).map(({ address, family }) => (family === 'IPv4' ? address : `[${address}]`));

/** Made by changing.js. */
class LocalServer {
  constructor() {
    this.own = new Set(addressesOfMachine());
  }

  /** @param {string} address */
  has(address) {
    try {
      const { protocol, hostname } = new URL(address);
      return protocol === 'http:' && (LOCAL_NAME.test(hostname) || this.own.has(hostname));
    } catch {
      return false; // no address
    }
  }
}

/**
 * The bytes of a response, or null if it is too large.
 * @param {Response} response
 */
async function bodyOf(response) {
  const pieces = [];
  let size = 0;
  const reader = response.body?.getReader();
  for (let part = await reader?.read(); part && !part.done; part = await reader?.read()) {
    size += part.value.length;
    if (size > LARGEST_ANSWER) {
      await reader?.cancel();
      return null;
    }
    pieces.push(part.value);
  }
  return Buffer.concat(pieces);
}

/** The server that a script came from, for the source map that the script names. No other origin is asked, also not by a redirect. */
class ServerOfScript {
  /** @param {string} script its address */
  constructor(script) {
    this.origin = originOf(script);
  }

  /** @param {string} address */
  has(address) {
    return this.origin !== null && originOf(address) === this.origin;
  }

  /**
   * What the server answers, over redirects in it.
   * @param {string} given
   * @returns {Promise<Answer|null>} null if it names another place, or nothing comes in time
   */
  async answer(given) {
    try {
      let address = given;
      for (let k = 0; k <= MOST_REDIRECTS && this.has(address); k++) {
        const response = await fetch(address, { redirect: 'manual', signal: timeout(address) });
        const location = response.status >= 300 && response.status < 400 && response.headers.get('location');
        if (!location) {
          const body = await bodyOf(response);
          return body && { status: response.status, type: '', body };
        }
        await response.body?.cancel();
        address = new URL(location, address).href;
      }
    } catch {
      // no answer, or none in time
    }
    return null;
  }
}

/**
 * The text of a script's source map: from the served folder if the script came from it, else from the script's own origin; null if there is none. Called by
 * driven/load.js and recording/session.js.
 * @param {string} address of the map
 * @param {string} script its address
 * @param {Folder|null} folder
 * @returns {Promise<string|null>}
 */
async function readMapOf(address, script, folder) {
  const isOfFolder = folder !== null && folder.has(script);
  const server = new ServerOfScript(script);
  if (isOfFolder ? !folder.has(address) : !server.has(address)) return null;
  const answer = isOfFolder ? folder.answer(address) : await server.answer(address);
  return answer && answer.status === 200 ? answer.body.toString() : null;
}

module.exports = { LocalServer, ServerOfScript, readMapOf };
