'use strict';
// Shaarli: bookmarks in a file, after a log-in by a form. The user changes a bookmark and wants to delete it.

const { servePhp } = require('../php.js');
const { Session } = require('../session.js');

const LOGIN = { login: 'reader', password: 'shaarli-pass-2026' };
const INSTALL = {
  setlogin: LOGIN.login, setpassword: LOGIN.password, continent: 'Europe', city: 'Berlin', title: 'Bookmarks', language: 'auto', Save: 'Install',
};
/** Debian's package leads to its own folders. */
const ROUTER = (/** @type {string} */ folder) => `<?php
$path = parse_url($_SERVER['REQUEST_URI'], PHP_URL_PATH);
if ($path !== '/' && is_file('${folder}' . $path)) return false;
$_SERVER['SCRIPT_NAME'] = '/index.php';
chdir('${folder}');
require '${folder}/index.php';
`;

/** @type {import('../types').Application} */
module.exports = {
  package: 'shaarli',
  packages: ['php-cli', 'php-xml', 'php-mbstring', 'php-intl', 'php-curl', 'php-gd'],
  login: 'form',
  async start(place) {
    const folder = await place.copy('/usr/share/shaarli', 'shaarli');
    ['data', 'cache', 'tmp', 'pagecache'].forEach((name) => place.newFolder('shaarli', name));
    const address = await servePhp(place, folder, { router: place.write('router.php', ROUTER(folder)) });
    const session = new Session(address);
    await session.send('/install', INSTALL);
    await session.send('/login', { ...LOGIN, longlastingsession: 'on' });
    return { page: `${address}/admin/shaare/1`, given: ['--storage-state', place.write('state.json', session.state())] };
  },
  flow: ['--do', 'type:#lf_title: of mine', '--do', 'type:#lf_tags:first', '--do', 'type:#lf_description:Words about it',
    '--do', 'click:.confirm-delete'],
};
