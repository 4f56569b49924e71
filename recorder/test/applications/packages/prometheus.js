'use strict';
// Prometheus with its classic interface, for users with a password. The user runs a query.

const { freePort } = require('../place.js');

const USER = 'watcher';
const PASSWORD = 'prom-pass-2026';
/** bcrypt of the password, at the least cost. */
const HASH_WORDS = ['-c', `import bcrypt; print(bcrypt.hashpw(b'${PASSWORD}', bcrypt.gensalt(4)).decode())`];
const SETTINGS = 'global:\n  scrape_interval: 2s\nscrape_configs:\n  - job_name: self\n    static_configs:\n      - targets: []\n';

/** @type {import('../types').Application} */
module.exports = {
  package: 'prometheus',
  packages: ['python3-bcrypt'],
  login: 'credentials',
  async start(place) {
    const port = await freePort();
    const hash = (await place.run('/usr/bin/python3', HASH_WORDS)).trim();
    const words = [`--config.file=${place.write('prometheus.yml', SETTINGS)}`, `--storage.tsdb.path=${place.newFolder('data')}`,
      `--web.listen-address=127.0.0.1:${port}`, `--web.config.file=${place.write('web.yml', `basic_auth_users:\n  ${USER}: ${hash}\n`)}`];
    place.serve('prometheus', words);
    const address = `http://127.0.0.1:${port}`;
    await place.ready(`${address}/`);
    return { page: `${address}/classic/graph`, given: ['--http-credentials', `${USER}:${PASSWORD}`] };
  },
  flow: ['--do', 'type:textarea:up', '--do', 'key:Enter', '--do', 'wait:500', '--clicks', '3'],
};
