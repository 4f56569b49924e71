'use strict';
// klaus: a viewer of Git repositories. The user looks at a file and marks lines.

const { freePort } = require('../place.js');

const AUTHOR = ['-c', 'user.name=User', '-c', 'user.email=user@example.org'];

/** @type {import('../types').Application} */
module.exports = {
  package: 'klaus',
  packages: ['git'],
  async start(place) {
    const tree = place.newFolder('tree');
    const git = (/** @type {string[]} */ ...words) => place.run('git', [...AUTHOR, ...words], { cwd: tree });
    await git('init', '-q', '-b', 'main');
    place.write('tree/list.txt', Array.from({ length: 40 }, (_, n) => `line ${n}`).join('\n'));
    await git('add', '.');
    await git('commit', '-q', '-m', 'adds a list');
    const port = await freePort();
    place.serve('/usr/bin/klaus', ['--host', '127.0.0.1', '--port', String(port), tree]);
    const address = `http://127.0.0.1:${port}`;
    await place.ready(`${address}/`);
    return { page: `${address}/tree/blob/main/list.txt` };
  },
  flow: ['--clicks', '3'],
};
