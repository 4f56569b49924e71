'use strict';
// Secrets of each kind are in no file and on no output.

const assert = require('node:assert');
const fs = require('node:fs');
const http = require('node:http');
const path = require('node:path');
const { after, before, test } = require('node:test');
const { PROGRAM } = require('../races/program.js');
const { run, temporaryFolder } = require('./cleanup.js');

const TOP = path.join(__dirname, '..', '..');
const folder = temporaryFolder('secrets');
const SECRETS = {
  header: 'headerSecret71', cookie: 'cookieSecret72', password: 'passwordSecret73', token: 'tokenSecret74', typed: 'typedSecret75', stored: 'storedSecret76',
  own: 'ownSecret77', server: 'serverSecret78', data: 'dataSecret79',
};
const AUTHORIZED = `Basic ${Buffer.from(`me:${SECRETS.password}`).toString('base64')}`;
/** Shows all it knows in errors, in the page, in variables and their names, and in requests. */
const PAGE = `<!doctype html><title>s</title><input type=password id=field><p id=out></p><script>
var all = [document.cookie, location.href, localStorage.getItem('it')].join(' ');
var known = {}; known[localStorage.getItem('it')] = 1;
document.getElementById('out').textContent = all;
document.getElementById('field').addEventListener('input', function typed(event) { window['t' + event.target.value] = 1; fetch('/data?session=dataSecret79'); console.error(event.target.value); });
setTimeout(function late() { seen = known; document.getElementById('out').textContent = all + ' late'; throw new Error(all + ' ownSecret77'); }, 20);
fetch('/data?api_key=dataSecret79').then(function came() { seen = all; document.getElementById('out').textContent = all; });
</script>`;
/** @type {string} */
let origin;
/** @type {Set<string>} */
const given = new Set();

const server = http.createServer(({ url, headers }, response) => {
  if (headers.authorization !== AUTHORIZED) {
    response.writeHead(401, { 'www-authenticate': 'Basic realm="x"' }).end('who?');
    return;
  }
  [headers['x-own'], headers.cookie, url].forEach((one) => given.add(String(one)));
  if (url?.startsWith('/page')) response.writeHead(200, { 'content-type': 'text/html', 'set-cookie': `server=${SECRETS.server}` }).end(PAGE);
  else response.writeHead(200).end('data');
});
before(async () => {
  await new Promise((resolve) => { server.listen(0, '127.0.0.1', () => resolve(null)); });
  origin = `http://127.0.0.1:${/** @type {import('node:net').AddressInfo} */ (server.address()).port}`;
});
after(() => {
  server.closeAllConnections();
  server.close();
});

/** @param {string} place @returns {string[]} */
const filesIn = (place) => fs.readdirSync(place, { withFileTypes: true }).flatMap((one) => (one.isDirectory() ? filesIn(path.join(place, one.name)) : [path.join(place, one.name)]));

test('planted secrets are in no file and on no output', { timeout: 300000 }, async () => {
  const state = path.join(folder, 'state.json');
  fs.writeFileSync(state, JSON.stringify({ cookies: [], origins: [{ origin, localStorage: [{ name: 'it', value: SECRETS.stored }] }] }));
  const work = path.join(folder, 'work');
  fs.mkdirSync(work);
  const args = [`${origin.replace('//', `//me:${SECRETS.password}@`)}/page?token=${SECRETS.token}`, '--header', `X-Own: ${SECRETS.header}`, '--cookie', `c=${SECRETS.cookie}`,
    '--storage-state', state, '--do', `type:#field:${SECRETS.typed}`, '--redact', 'own[A-Z]\\w+', '--replay', '--most', '2', '--json', '--sarif', 'all.sarif'];
  const env = { ...process.env, ER_CLI: PROGRAM };
  const { status, stdout, stderr } = await run(path.join(TOP, 'er_page'), args, { cwd: work, env, longest: 240000 });
  assert.ok(status === 0 || status === 1, stderr);
  assert.ok([...given].some((one) => one.includes(SECRETS.token)) && given.has(SECRETS.header) && [...given].some((one) => one.includes(SECRETS.cookie)));
  assert.ok(JSON.parse(stdout).problems || JSON.parse(stdout).races);
  const files = filesIn(work);
  assert.ok(files.some((file) => file.endsWith('page.replay.json')), files.join());
  for (const [kind, secret] of Object.entries(SECRETS)) {
    assert.ok(!stdout.includes(secret), `${kind} on standard output`);
    assert.ok(!stderr.includes(secret), `${kind} on standard error: ${stderr}`);
    for (const file of files) assert.ok(!fs.readFileSync(file, 'utf8').includes(secret), `${kind} in ${file}`);
  }
  assert.match(stderr, /__hidden__/);
});
