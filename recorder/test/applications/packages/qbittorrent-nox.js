'use strict';
// qBittorrent's web interface (MooTools), after a log-in by a cookie. The user filters the list and looks into menus.

const { freePort } = require('../place.js');
const { Session } = require('../session.js');

/** Those of a new installation. */
const LOGIN = { username: 'admin', password: 'adminadmin' };
const SETTINGS = '[LegalNotice]\nAccepted=true\n\n[Preferences]\nWebUI\\Address=127.0.0.1\n';

/** @type {import('../types').Application} */
module.exports = {
  package: 'qbittorrent-nox',
  packages: [],
  login: 'cookie',
  async start(place) {
    const port = await freePort();
    place.write('profile/qBittorrent/config/qBittorrent.conf', SETTINGS);
    place.serve('qbittorrent-nox', [`--profile=${place.path('profile')}`, `--webui-port=${port}`]);
    const address = `http://127.0.0.1:${port}`;
    await place.ready(`${address}/`);
    const session = new Session(address);
    await session.post('/api/v2/auth/login', LOGIN);
    return { page: `${address}/`, given: ['--storage-state', place.write('state.json', session.state())] };
  },
  flow: ['--do', 'wait:1000', '--clicks', '4'],
};
