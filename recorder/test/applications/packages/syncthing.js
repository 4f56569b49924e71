'use strict';
// Syncthing's interface (Angular), with a home in the folder. The user opens the settings.

const { freePort } = require('../place.js');

/** @type {import('../types').Application} */
module.exports = {
  package: 'syncthing',
  packages: [],
  async start(place) {
    const port = await freePort();
    const home = place.newFolder('syncthing');
    const env = { STNORESTART: '1', STNODEFAULTFOLDER: '1', STNOUPGRADE: '1' };
    await place.run('syncthing', ['generate', `--home=${home}`], { env });
    place.serve('syncthing', ['serve', `--home=${home}`, '--no-browser', '--no-restart', `--gui-address=127.0.0.1:${port}`], { env });
    const address = `http://127.0.0.1:${port}`;
    await place.ready(`${address}/`);
    return { page: `${address}/` };
  },
  flow: ['--clicks', '5'],
};
