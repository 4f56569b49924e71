'use strict';
// phpLiteAdmin with an SQLite database, after a log-in by its form. The user makes a table.

const { servePhp } = require('../php.js');
const { Session } = require('../session.js');

const PASSWORD = 'lite-pass-2026';

/** @type {import('../types').Application} */
module.exports = {
  package: 'phpliteadmin',
  packages: ['php-cli', 'php-sqlite3', 'php-mbstring'],
  login: 'form',
  async start(place) {
    const folder = await place.copy('/usr/share/phpliteadmin', 'phpliteadmin');
    const store = place.newFolder('store');
    place.write('phpliteadmin/phpliteadmin.config.php', `<?php\n$directory = '${store}';\n$password = '${PASSWORD}';\n`);
    await place.run('php', ['-r', `(new SQLite3('${store}/shop.sqlite'))->exec('create table items (id integer primary key, name text, price integer)');`]);
    const address = await servePhp(place, folder);
    const session = new Session(address);
    await session.send('/phpliteadmin.php', { password: PASSWORD, login: 'Log In', proc_login: 'true' });
    const page = `${address}/phpliteadmin.php?action=row_create&table=items&database=${encodeURIComponent(`${store}/shop.sqlite`)}`;
    return { page, given: ['--storage-state', place.write('state.json', session.state())] };
  },
  flow: ['--do', 'type:"input[type=text]":tea', '--clicks', '3'],
};
