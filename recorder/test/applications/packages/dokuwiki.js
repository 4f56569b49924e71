'use strict';
// DokuWiki: a wiki without a database. The user searches, with suggestions, and edits a page.

const { servePhp } = require('../php.js');
const { Session } = require('../session.js');

const CONFIGURATION = `<?php
$conf['title'] = 'A wiki';
$conf['license'] = 'cc-by-sa';
$conf['useacl'] = 0;
$conf['usedraft'] = 0;
$conf['savedir'] = '../data';
`;

/** @type {import('../types').Application} */
module.exports = {
  package: 'dokuwiki',
  packages: ['php-cli', 'php-xml'],
  async start(place) {
    const wiki = await place.copy('/usr/share/dokuwiki', 'dokuwiki');
    await place.copy('/etc/dokuwiki', 'conf');
    await place.copy('/var/lib/dokuwiki/data', 'data');
    place.write('conf/local.php', CONFIGURATION);
    // The package's own says where configurations are: here in the folder.
    place.write('dokuwiki/inc/preload.php', `<?php define('DOKU_CONF', '${place.path('conf')}/');\n`);
    place.write('data/pages/start.txt', '====== Start ======\n\nA page with a [[link]].\n\n===== Part =====\n\nText.\n');
    const session = new Session(await servePhp(place, wiki));
    // All recordings are of one session: another one gets a page that is locked.
    await session.request('/doku.php');
    return { page: `${session.origin}/doku.php?id=start&do=edit`, given: ['--storage-state', place.write('state.json', session.state())] };
  },
  flow: ['--do', 'type:#qsearch__in:sta', '--do', 'wait:800', '--do', 'type:#wiki__text:== A new part ==', '--do', 'click:#tool__bar button',
    '--do', 'type:#edit__summary:a part', '--clicks', '2'],
};
