'use strict';
// PHP's own web server for an application's folder.

const { freePort } = require('./place.js');

/** Requests in parallel, as a page makes them. */
const WORKERS = '6';

/**
 * Serves a folder, and answers its address.
 * @param {import('./place.js').Place} place
 * @param {string} folder
 * @param {{router?: string, settings?: {[name: string]: string}, env?: {[name: string]: string}}} options  `router` is a script that answers all requests
 */
async function servePhp(place, folder, { router, settings = {}, env = {} } = {}) {
  const port = await freePort();
  const own = { 'session.save_path': place.newFolder('sessions'), 'sys_temp_dir': place.newFolder('uploads'), 'display_errors': '0', ...settings };
  const words = Object.entries(own).flatMap(([name, value]) => ['-d', `${name}=${value}`]);
  words.push('-S', `127.0.0.1:${port}`, '-t', folder, ...router ? [router] : []);
  place.serve('php', words, { cwd: folder, env: { PHP_CLI_SERVER_WORKERS: WORKERS, ...env } });
  const address = `http://127.0.0.1:${port}`;
  await place.ready(`${address}/`);
  return address;
}

module.exports = { servePhp };
