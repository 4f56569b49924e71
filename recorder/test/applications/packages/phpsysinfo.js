'use strict';
// phpSysInfo's dynamic page, which loads its figures by itself. The user sorts and refreshes them.

const { servePhp } = require('../php.js');

/** @type {import('../types').Application} */
module.exports = {
  package: 'phpsysinfo',
  packages: ['php-cli', 'php-xml'],
  async start(place) {
    const folder = await place.copy('/usr/share/phpsysinfo', 'phpsysinfo');
    return { page: `${await servePhp(place, folder)}/index.php?disp=dynamic` };
  },
  flow: ['--do', 'wait:1000', '--clicks', '4'],
};
