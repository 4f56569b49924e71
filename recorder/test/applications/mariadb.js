'use strict';
// MariaDB in a temporary folder, reached by a socket there.

const os = require('node:os');

/**
 * Starts a server with an empty database and a user, and answers its socket and how statements are run.
 * @param {import('./place.js').Place} place
 * @param {{user: string, password: string, database: string}} names
 */
async function startMariadb(place, { user, password, database }) {
  const data = place.path('mariadb');
  const socket = place.path('mariadb.sock');
  const owner = [`--user=${os.userInfo().username}`];
  await place.run('mariadb-install-db', ['--no-defaults', `--datadir=${data}`, '--auth-root-authentication-method=normal', '--skip-test-db', ...owner]);
  place.serve('mariadbd', ['--no-defaults', `--datadir=${data}`, `--socket=${socket}`, '--skip-networking', `--pid-file=${place.path('mariadb.pid')}`,
    '--innodb-buffer-pool-size=32M', '--innodb-flush-log-at-trx-commit=0', ...owner]);
  await place.ready(socket);
  const run = (/** @type {string} */ sql) => place.run('mariadb', ['--no-defaults', `--socket=${socket}`, '-u', 'root', '-e', sql]);
  await run(`CREATE DATABASE ${database}; CREATE USER '${user}'@'localhost' IDENTIFIED BY '${password}'; GRANT ALL ON *.* TO '${user}'@'localhost'`);
  return { socket, run };
}

module.exports = { startMariadb };
