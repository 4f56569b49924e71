'use strict';
// The applications, in alphabetical order.

const NAMES = ['adminer', 'deluge-web', 'dokuwiki', 'fossil', 'gitweb', 'jupyter-notebook', 'klaus', 'mediawiki', 'mercurial', 'phpliteadmin', 'phpmyadmin',
  'phpsysinfo', 'prometheus', 'qbittorrent-nox', 'shaarli', 'syncthing', 'wordpress'];

/** @type {{[name: string]: import('./types').Application}} */
const APPLICATIONS = Object.fromEntries(NAMES.map((name) => [name, require(`./packages/${name}.js`)]));

module.exports = { APPLICATIONS };
