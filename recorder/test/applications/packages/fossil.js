'use strict';
// Fossil: a version control system with tickets and a wiki in one SQLite file. The user looks at the timeline and filters it.

const { freePort } = require('../place.js');

/** @type {import('../types').Application} */
module.exports = {
  package: 'fossil',
  packages: [],
  async start(place) {
    const tree = place.newFolder('tree');
    const fossil = (/** @type {string[]} */ ...words) => place.run('fossil', words, { cwd: tree, env: { USER: 'user' } });
    await fossil('init', '--admin-user', 'user', '../store.fossil');
    await fossil('open', '--force', '../store.fossil');
    for (const name of ['one', 'two', 'three']) {
      place.write(`tree/${name}.txt`, `${name}\nlines\n`);
      await fossil('add', `${name}.txt`);
      await fossil('commit', '--no-warnings', '-m', `adds ${name}`);
    }
    const port = await freePort();
    place.serve('fossil', ['server', '--localhost', '--port', String(port), 'store.fossil'], { env: { USER: 'user' } });
    const address = `http://127.0.0.1:${port}`;
    await place.ready(`${address}/`);
    return { page: `${address}/timeline` };
  },
  flow: ['--clicks', '4'],
};
