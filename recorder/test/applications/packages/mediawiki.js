'use strict';
// MediaWiki with SQLite. The user searches, with suggestions as they type.

const fs = require('node:fs');
const { servePhp } = require('../php.js');

const PASSWORD = 'wiki-pass-2026-long';
const SHARE = '/usr/share/mediawiki';
const TITLES = ['Test', 'Tea', 'Team', 'Temple', 'Tent', 'Text'];

/** @type {import('../types').Application} */
module.exports = {
  package: 'mediawiki',
  packages: ['php-cli', 'php-sqlite3', 'php-mbstring', 'php-xml', 'php-intl'],
  async start(place) {
    await place.copy('/var/lib/mediawiki/extensions', 'extensions');
    const words = ['--dbtype', 'sqlite', '--dbpath', place.newFolder('data'), '--confpath', place.newFolder('conf'), '--server', 'http://127.0.0.1',
      '--scriptpath', '', '--pass', PASSWORD, 'A wiki', 'Admin'];
    await place.run('php', [`${SHARE}/maintenance/install.php`, ...words], { env: { MW_CONFIG_FILE: place.path('conf/none.php') } });
    const settings = fs.readFileSync(place.path('conf/LocalSettings.php'), 'utf8');
    const own = `$wgServer = 'http://' . ($_SERVER['HTTP_HOST'] ?? '127.0.0.1');\n$wgCacheDirectory = '${place.newFolder('cache')}';\n`;
    const env = { MW_CONFIG_FILE: place.write('conf/Own.php', `${settings}\n${own}`) };
    for (const title of TITLES) place.write(`text/${title}`, `A page about ${title}.`);
    await place.run('php', [`${SHARE}/maintenance/importTextFiles.php`, ...TITLES.map((title) => place.path('text', title))], { env });
    return { page: `${await servePhp(place, SHARE, { env })}/index.php?title=Main_Page` };
  },
  flow: ['--do', 'type:#searchInput:te', '--do', 'wait:800', '--do', 'type:#searchInput:s', '--do', 'wait:1500', '--do', 'key:ArrowDown'],
};
