'use strict';
// phpMyAdmin with MariaDB, after a log-in by its form. The user opens a table, writes a query and runs it.

const { startMariadb } = require('../mariadb.js');
const { servePhp } = require('../php.js');
const { Session } = require('../session.js');

const NAMES = { user: 'keeper', password: 'pma-pass-2026', database: 'shop' };
const SETTINGS = (/** @type {string} */ socket) => `<?php
$cfg['blowfish_secret'] = '${'b'.repeat(32)}';
$cfg['TempDir'] = sys_get_temp_dir();
$cfg['Servers'][1] = ['auth_type' => 'cookie', 'host' => 'localhost', 'socket' => '${socket}', 'AllowNoPassword' => false];
`;

/** @type {import('../types').Application} */
module.exports = {
  package: 'phpmyadmin',
  packages: ['php-cli', 'php-mysql', 'php-mbstring', 'php-xml', 'mariadb-server'],
  login: 'form',
  async start(place) {
    const { socket, run } = await startMariadb(place, NAMES);
    await run('CREATE TABLE shop.items (id INT PRIMARY KEY AUTO_INCREMENT, name VARCHAR(40))');
    await run("INSERT INTO shop.items (name) VALUES ('tea'), ('salt'), ('rice')");
    const folder = await place.copy('/usr/share/phpmyadmin', 'phpmyadmin');
    const own = place.write('config.inc.php', SETTINGS(socket));
    await place.run('sed', ['-i', `s#CONFIG_DIR . 'config.inc.php'\\|'/etc/phpmyadmin/config.inc.php'#'${own}'#`, `${folder}/libraries/vendor_config.php`]);
    const address = await servePhp(place, folder);
    const session = new Session(address);
    await session.send('/index.php?route=/', { pma_username: NAMES.user, pma_password: NAMES.password, server: '1' });
    return { page: `${address}/index.php?route=/sql&db=shop&table=items&pos=0`, given: ['--storage-state', place.write('state.json', session.state())] };
  },
  flow: ['--do', 'wait:1000', '--clicks', '4'],
};
