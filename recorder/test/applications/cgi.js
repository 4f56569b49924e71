'use strict';
// A web server for one CGI program, and the files beside it.

const { spawn } = require('node:child_process');
const fs = require('node:fs');
const http = require('node:http');
const path = require('node:path');

const TYPES = /** @type {{[end: string]: string}} */ ({ '.js': 'text/javascript', '.css': 'text/css', '.png': 'image/png' });

/**
 * The environment of a request, as CGI has it.
 * @param {http.IncomingMessage} request
 * @param {URL} url
 * @param {string} script  the part of the path that names the program
 */
function environmentOf(request, url, script) {
  const headers = Object.entries(request.headers).map(([name, value]) => [`HTTP_${name.toUpperCase().replace(/-/g, '_')}`, String(value)]);
  return {
    PATH: process.env.PATH, GATEWAY_INTERFACE: 'CGI/1.1', SERVER_PROTOCOL: 'HTTP/1.1', SERVER_NAME: url.hostname, SERVER_PORT: url.port,
    REMOTE_ADDR: '127.0.0.1', REQUEST_METHOD: request.method, SCRIPT_NAME: script, PATH_INFO: url.pathname.slice(script.length),
    QUERY_STRING: url.search.slice(1), REQUEST_URI: request.url,
    CONTENT_TYPE: request.headers['content-type'] || '', CONTENT_LENGTH: request.headers['content-length'] || '', ...Object.fromEntries(headers),
  };
}

/**
 * What a program printed: its header, and the rest.
 * @param {Buffer} printed
 */
function readAnswer(printed) {
  const [end] = /\r?\n\r?\n/.exec(printed.toString('latin1')) || [''];
  const at = end ? printed.indexOf(end) : 0;
  const headers = printed.subarray(0, at).toString().split(/\r?\n/).flatMap((line) => {
    const found = /^([\w-]+): *(.*)$/.exec(line);
    return found ? [/** @type {[string, string]} */ ([found[1], found[2]])] : [];
  });
  const status = Number(headers.find(([name]) => /^status$/i.test(name))?.[1].slice(0, 3)) || (end ? 200 : 500);
  return { status, headers: headers.filter(([name]) => !/^status$/i.test(name)), body: printed.subarray(at + end.length) };
}

/**
 * Serves a program at `script` and a folder at all other paths, until the process ends. Answers the address.
 * @param {{program: string, script: string, folder: string, env: {[name: string]: string}}} what
 * @returns {Promise<string>}
 */
function serveCgi({ program, script, folder, env }) {
  const server = http.createServer((request, response) => {
    const url = new URL(request.url || '/', `http://${request.headers.host}`);
    const file = path.join(folder, path.normalize(url.pathname));
    if (url.pathname.startsWith(script)) {
      const child = spawn(program, [], { env: { ...environmentOf(request, url, script), ...env }, stdio: ['pipe', 'pipe', 'ignore'] });
      /** @type {Buffer[]} */
      const pieces = [];
      request.pipe(child.stdin).on('error', () => {});
      child.stdout.on('data', (piece) => pieces.push(piece));
      child.on('close', () => {
        const { status, headers, body } = readAnswer(Buffer.concat(pieces));
        response.writeHead(status, headers.flat()).end(body);
      });
    } else if (fs.statSync(file, { throwIfNoEntry: false })?.isFile()) {
      response.writeHead(200, { 'content-type': TYPES[path.extname(file)] || 'application/octet-stream' }).end(fs.readFileSync(file));
    } else response.writeHead(404).end();
  });
  return new Promise((resolve) => {
    server.listen(0, '127.0.0.1', () => resolve(`http://127.0.0.1:${/** @type {import('node:net').AddressInfo} */ (server.address()).port}`));
    server.unref();
  });
}

module.exports = { serveCgi, readAnswer };
