'use strict';
// WordPress's post editor (Gutenberg) with MariaDB, after a log-in by its form. The user writes a title and a paragraph.

const { startMariadb } = require('../mariadb.js');
const { servePhp } = require('../php.js');
const { Session } = require('../session.js');

const NAMES = { user: 'wordpress', password: 'wp-db-pass-2026', database: 'wordpress' };
const LOGIN = { log: 'author', pwd: 'wp-pass-2026-long' };
/** That the guide for new users has been closed. */
const NO_GUIDE = `INSERT INTO ${NAMES.database}.wp_usermeta (user_id, meta_key, meta_value)
  VALUES (1, 'wp_persisted_preferences', 'a:1:{s:14:"core/edit-post";a:1:{s:12:"welcomeGuide";b:0;}}')`;
const SETTINGS = (/** @type {string} */ folder) => `<?php
define('DB_NAME', '${NAMES.database}');
define('DB_USER', '${NAMES.user}');
define('DB_PASSWORD', '${NAMES.password}');
define('DB_HOST', 'localhost:${folder}/mariadb.sock');
define('DISABLE_WP_CRON', true);
define('WP_HTTP_BLOCK_EXTERNAL', true);
define('AUTOMATIC_UPDATER_DISABLED', true);
define('WP_HOME', 'http://' . ($_SERVER['HTTP_HOST'] ?? '127.0.0.1'));
define('WP_SITEURL', WP_HOME);
define('ABSPATH', '${folder}/wordpress/');
$table_prefix = 'wp_';
require_once(ABSPATH . 'wp-settings.php');
`;

/** @type {import('../types').Application} */
module.exports = {
  package: 'wordpress',
  packages: ['php-cli', 'php-mysql', 'php-xml', 'php-gd', 'mariadb-server'],
  login: 'form',
  async start(place) {
    const { run } = await startMariadb(place, NAMES);
    const folder = await place.copy('/usr/share/wordpress', 'wordpress');
    place.write('wordpress/wp-config.php', SETTINGS(place.folder));
    const address = await servePhp(place, folder);
    const session = new Session(address);
    const passwords = { admin_password: LOGIN.pwd, admin_password2: LOGIN.pwd, pw_weak: 'on' };
    const fields = { weblog_title: 'Notes', user_name: LOGIN.log, admin_email: 'author@example.org', blog_public: '0', language: '', ...passwords };
    await session.post('/wp-admin/install.php?step=2', fields);
    await run(NO_GUIDE);
    await session.send('/wp-login.php', { ...LOGIN, testcookie: '1', 'wp-submit': 'Log In' });
    return { page: `${address}/wp-admin/post-new.php`, given: ['--storage-state', place.write('state.json', session.state())] };
  },
  flow: ['--do', 'wait:1500', '--do', 'type:.editor-post-title__input:A title', '--do', 'key:Enter', '--do', 'type:p.wp-block-paragraph:Words',
    '--do', 'wait:1000', '--clicks', '2'],
};
