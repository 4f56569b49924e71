'use strict';
// Which packages of the applications are installed, in which versions, and the installation of those that are missing.

const { run } = require('../cleanup.js');

const LONGEST_INSTALL = 1800000;
const LONGEST_QUERY = 60000;

/**
 * The versions of those of some packages that are installed.
 * @param {string[]} names
 * @returns {Promise<Map<string, string>>}
 */
async function versionsOf(names) {
  const { stdout } = await run('dpkg-query', ['-W', '-f', '${Package} ${db:Status-Status} ${Version}\n', ...names], { longest: LONGEST_QUERY });
  const rows = stdout.split('\n').map((line) => line.split(' ')).filter(([, status]) => status === 'installed');
  return new Map(rows.map(([name, , version]) => [name, version]));
}

/**
 * Installs packages without what apt only recommends. No server of theirs is started by it where Debian's policy-rc.d forbids it.
 * @param {string[]} names
 */
async function install(names) {
  const words = ['install', '-y', '-q', '--no-install-recommends', '-o', 'DPkg::Lock::Timeout=600', ...names];
  const env = { ...process.env, DEBIAN_FRONTEND: 'noninteractive', RUNLEVEL: '1' };
  const { status, stderr } = await run('apt-get', words, { longest: LONGEST_INSTALL, env });
  if (status !== 0) throw new Error(`apt-get: status ${status}: ${stderr.trim().split('\n').slice(-1)[0]}`);
}

module.exports = { versionsOf, install };
