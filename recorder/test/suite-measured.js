#!/usr/bin/env node
'use strict';
// What er_suite takes for 50, 200 and 1,000 page loads of a thousand actions: recorder/test/suite-measured.js, with the built analyzer. It writes its part of
// docs/measured/suite.md; suite-cost.js writes the other ones.

const { spawnSync } = require('node:child_process');
const fs = require('node:fs');
const os = require('node:os');
const path = require('node:path');
const { temporaryFolder } = require('./cleanup.js');
const { writeLoad, PROBLEMS } = require('./made-load.js');
const { writePart } = require('./suite-tables.js');

const TOP = path.join(__dirname, '..', '..');
const COUNTS = [50, 200, 1000];

/** @param {number} count */
function measure(count) {
  const folder = temporaryFolder('suite-measured');
  const actions = Array.from({ length: count }, (_, k) => writeLoad(folder, k));
  const words = ['-f', '%e %U %S %M', 'node', '--max-old-space-size=4096', path.join(TOP, 'recorder', 'suite.js'), folder, '--junit', path.join(folder, 'races.xml')];
  const { stderr, status } = spawnSync('/usr/bin/time', words, { encoding: 'utf8', maxBuffer: 1 << 28 });
  const [elapsed, user, system, memory] = (/^([\d.]+) ([\d.]+) ([\d.]+) (\d+)$/m.exec(stderr) || []).slice(1).map(Number);
  if (status !== 1 || memory === undefined) throw new Error(`status ${status}: ${stderr}`);
  fs.rmSync(folder, { recursive: true });
  return { count, actions: Math.min(...actions), elapsed, seconds: user + system, megabytes: memory / 1024 };
}

const rows = COUNTS.map(measure);
const table = rows.map(({ count, elapsed, seconds, megabytes }) => `| ${count.toLocaleString('en')} | ${elapsed.toFixed(1)} | ${seconds.toFixed(1)} | ${(1000 * elapsed / count).toFixed(0)} | ${megabytes.toFixed(0)} |`);
writePart('A list over many page loads', `By \`recorder/test/suite-measured.js\`, on ${os.cpus().length} processors with a load of ${os.loadavg()[1].toFixed(1)}.

\`er_suite\` with \`--junit\` for folders of traces of ${rows[0].actions.toLocaleString('en')} actions or more: each has ${PROBLEMS.shared + PROBLEMS.own} problems, of which all loads have ${PROBLEMS.shared}, and 200 kB of source text. Processor time includes the analyzer's; memory is the most that one process had at once.

| Page loads | Seconds | Processor time, seconds | Milliseconds a load | Peak memory, MB |
|---|---|---|---|---|
${table.join('\n')}
`);
