'use strict';
// Deluge's web interface (Ext), after a log-in by a cookie. The user opens the preferences.

const { freePort } = require('../place.js');
const { Session } = require('../session.js');

/** That of a new installation. */
const PASSWORD = 'deluge';

/** @type {import('../types').Application} */
module.exports = {
  package: 'deluge-web',
  packages: [],
  login: 'cookie',
  async start(place) {
    const port = await freePort();
    place.serve('/usr/bin/deluge-web', ['--do-not-daemonize', '-c', place.newFolder('deluge'), '-i', '127.0.0.1', '-p', String(port)]);
    const address = `http://127.0.0.1:${port}`;
    await place.ready(`${address}/`);
    const session = new Session(address);
    const body = JSON.stringify({ method: 'auth.login', params: [PASSWORD], id: 1 });
    await session.request('/json', { method: 'POST', body, headers: { 'content-type': 'application/json' } });
    return { page: `${address}/`, given: ['--storage-state', place.write('state.json', session.state())] };
  },
  flow: ['--do', 'wait:1000', '--clicks', '4'],
};
