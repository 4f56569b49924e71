'use strict';
// A web site for the tests of suites: the shop of examples/, a log-in that sets a cookie, an account that asks for it, and a window that it opens.

const fs = require('node:fs');
const http = require('node:http');
const path = require('node:path');
const { Folder, ORIGIN } = require('../browser/folder.js');
const { sleep } = require('../common/time.js');
const { listen } = require('./server.js');

const TOP = path.join(__dirname, '..', '..');
const PAGES = path.join(__dirname, 'pages', 'suite');
/** Milliseconds that slow.json takes: much longer than what the page does meanwhile. */
const SLOW = 2000;
const shop = new Folder(path.join(TOP, 'examples'));
/** @param {http.IncomingMessage} request */
const hasCookie = ({ headers }) => /\bsession=ok\b/.test(headers.cookie || '');

/**
 * What each address of the site answers.
 * @param {http.IncomingMessage} request
 * @returns {{status: number, type: string, body: string|Buffer, location?: string, cookie?: string}}
 */
function answer(request) {
  const { pathname } = new URL(request.url || '', ORIGIN);
  if (pathname.startsWith('/shop/')) return shop.answer(`${ORIGIN}${request.url}`);
  if (pathname === '/login' && request.method === 'POST') return { status: 303, type: 'text/plain', body: '', location: '/account', cookie: 'session=ok; HttpOnly; Path=/' };
  if (pathname === '/account' && !hasCookie(request)) return { status: 303, type: 'text/plain', body: '', location: '/login' };
  if (pathname === '/slow.json') return { status: 200, type: 'application/json', body: '{}' };
  if (pathname === '/orders.json') return hasCookie(request) ? { status: 200, type: 'application/json', body: '{"orders": 3}' } : { status: 403, type: 'text/plain', body: 'no' };
  const file = path.join(PAGES, path.extname(pathname) ? pathname : `${pathname}.html`);
  if (!fs.existsSync(file)) return { status: 404, type: 'text/plain', body: 'not found\n' };
  return { status: 200, type: path.extname(file) === '.js' ? 'text/javascript' : 'text/html; charset=utf-8', body: fs.readFileSync(file) };
}

/** @returns {Promise<{origin: string, close: () => void}>} */
async function serveSuite(port = 0) {
  const server = http.createServer(async (request, response) => {
    request.resume();
    if (request.url === '/slow.json') await sleep(SLOW);
    const { status, type, body, location, cookie } = answer(request);
    response.writeHead(status, { 'content-type': type, ...(location ? { location } : {}), ...(cookie ? { 'set-cookie': cookie } : {}) }).end(body);
  });
  return {
    origin: `http://127.0.0.1:${await listen(server, port)}`,
    close: () => { server.closeAllConnections(); server.close(); },
  };
}

module.exports = { serveSuite };

if (require.main === module) serveSuite(Number(process.argv[2] || 0)).then(({ origin }) => console.log(origin));
