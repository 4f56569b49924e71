'use strict';
// Mercurial's own web interface. The user scrolls through a long history, which its script loads piece by piece.

const { freePort } = require('../place.js');

const CHANGES = 130;

/**
 * A change as Mercurial imports it.
 * @param {number} k
 */
function changeOf(k) {
  const head = `# HG changeset patch\n# User User <user@example.org>\n# Date ${k} 0\nchange ${k}\n\ndiff --git a/list.txt b/list.txt\n`;
  if (!k) return `${head}new file mode 100644\n--- /dev/null\n+++ b/list.txt\n@@ -0,0 +1,1 @@\n+0\n`;
  return `${head}--- a/list.txt\n+++ b/list.txt\n@@ -1,1 +1,1 @@\n-${k - 1}\n+${k}\n`;
}

/** @type {import('../types').Application} */
module.exports = {
  package: 'mercurial',
  packages: [],
  async start(place) {
    const tree = place.newFolder('tree');
    const env = { HGRCPATH: place.write('hgrc', '[ui]\nusername = User <user@example.org>\n') };
    const hg = (/** @type {string[]} */ ...words) => place.run('/usr/bin/hg', words, { cwd: tree, env });
    await hg('init');
    await hg('import', '-q', place.write('all.patch', Array.from({ length: CHANGES }, (_, k) => changeOf(k)).join('')));
    const port = await freePort();
    place.serve('/usr/bin/hg', ['serve', '--address', '127.0.0.1', '--port', String(port), '--name', 'tree'], { cwd: tree, env });
    const address = `http://127.0.0.1:${port}`;
    await place.ready(`${address}/`);
    return { page: `${address}/graph` };
  },
  flow: ['--do', 'key:End', '--do', 'wait:1000', '--do', 'key:End', '--do', 'wait:1000', '--clicks', '2'],
};
