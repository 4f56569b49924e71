'use strict';
// gitweb, a CGI program. The user looks at who wrote which line, which its script loads piece by piece.

const { serveCgi } = require('../cgi.js');

const SETTINGS = (/** @type {string} */ folder) => `our $projectroot = '${folder}';
$feature{'blame'}{'default'} = [1];
$feature{'javascript-actions'}{'default'} = [1];
@stylesheets = ('/static/gitweb.css');
$logo = '/static/git-logo.png';
$favicon = '/static/git-favicon.png';
$javascript = '/static/gitweb.js';
1;
`;
const AUTHOR = ['-c', 'user.name=User', '-c', 'user.email=user@example.org'];

/** @type {import('../types').Application} */
module.exports = {
  package: 'gitweb',
  packages: ['git', 'libcgi-pm-perl'],
  async start(place) {
    const tree = place.newFolder('projects', 'tree');
    const git = (/** @type {string[]} */ ...words) => place.run('git', [...AUTHOR, ...words], { cwd: tree });
    await git('init', '-q', '-b', 'main');
    for (let k = 1; k <= 6; k++) {
      place.write('projects/tree/list.txt', Array.from({ length: k * 12 }, (_, n) => `line ${n} of ${n % k}`).join('\n'));
      await git('add', '.');
      await git('commit', '-q', '-m', `change ${k}`);
    }
    const env = { GITWEB_CONFIG: place.write('gitweb.conf', SETTINGS(place.path('projects'))) };
    const address = await serveCgi({ program: '/usr/lib/cgi-bin/gitweb.cgi', script: '/gitweb', folder: '/usr/share/gitweb', env });
    return { page: `${address}/gitweb?p=tree/.git;a=blame_incremental;f=list.txt;hb=HEAD` };
  },
  flow: ['--clicks', '3'],
};
