'use strict';
// Phases that keep a command busy: lines every five seconds, and signals.

const assert = require('node:assert');
const path = require('node:path');
const { test } = require('node:test');
const { start } = require('./cleanup.js');

const MODULE = path.join(__dirname, '..', 'phase.js');
const BUSY = 'for (const until = Date.now() + LENGTH; Date.now() < until;);';
/** @param {string} code */
const run = (code) => start(process.execPath, ['-e', `const { phase, atSignalsMercy } = require(${JSON.stringify(MODULE)}); ${code}`]);

test('a phase that keeps the process busy prints a line every five seconds', { timeout: 60000 }, async () => {
  const command = run(`phase('counting', () => { ${BUSY.replace('LENGTH', '7000')} }).then(() => console.log('done'));`);
  assert.strictEqual(await command.ended, 0, command.said);
  assert.match(command.said, /^counting: [5-7] s$/m);
  assert.match(command.output, /done/);
  const short = run("phase('counting', () => 1).then(console.log);");
  assert.deepStrictEqual([await short.ended, short.said, short.output], [0, '', '1\n']);
});

test('a signal ends work that keeps the process busy', { timeout: 60000 }, async () => {
  for (const signal of /** @type {const} */ (['SIGINT', 'SIGTERM'])) {
    const command = run(`process.on('${signal}', () => console.log('late')); console.log('busy'); setTimeout(() => atSignalsMercy(() => { console.log('now'); ${BUSY.replace('LENGTH', '20000')} }), 10);`);
    while (!command.output.includes('now')) await new Promise((resolve) => { setTimeout(resolve, 20); });
    const begin = Date.now();
    command.kill(signal);
    await command.ended;
    assert.ok(Date.now() - begin < 3000 && command.signalCode === signal && !command.output.includes('late'), `${command.signalCode}`);
  }
});
