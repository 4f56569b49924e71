'use strict';
// Adminer with MariaDB, after a log-in by its form. The user changes a table's columns.

const { startMariadb } = require('../mariadb.js');
const { servePhp } = require('../php.js');
const { Session } = require('../session.js');

const NAMES = { user: 'keeper', password: 'adminer-pass-2026', database: 'shop' };

/** @type {import('../types').Application} */
module.exports = {
  package: 'adminer',
  packages: ['php-cli', 'php-mysql', 'mariadb-server'],
  login: 'form',
  async start(place) {
    const { socket, run } = await startMariadb(place, NAMES);
    await run('CREATE TABLE shop.items (id INT PRIMARY KEY AUTO_INCREMENT, name VARCHAR(40), price INT)');
    const settings = { 'mysqli.default_socket': socket, 'pdo_mysql.default_socket': socket };
    const address = await servePhp(place, '/usr/share/adminer', { settings });
    const session = new Session(address);
    const page = `/adminer.php?server=localhost&username=${NAMES.user}&db=${NAMES.database}&create=items`;
    const fields = { driver: 'server', server: 'localhost', username: NAMES.user, password: NAMES.password, db: NAMES.database, permanent: '1' };
    await session.post('/adminer.php', Object.fromEntries(Object.entries(fields).map(([name, value]) => [`auth[${name}]`, value])));
    return { page: `${address}${page}`, given: ['--storage-state', place.write('state.json', session.state())] };
  },
  flow: ['--do', 'type:"input[name=\'fields[2][field]\']":x', '--do', 'click:"input[name=\'add[3]\']"', '--do', 'type:"input[name=\'Comment\']":goods',
    '--clicks', '2'],
};
