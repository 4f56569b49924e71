'use strict';
// qBittorrent's properties: the script of the files looks up a field of the toolbar (prop-files.js), which another request brings.

/** @type {import('../types').Confirmed} */
module.exports = {
  application: 'qbittorrent-nox',
  loses: 'If the toolbar comes after the script, the script ends with an error: the files of a torrent are never shown, until the user loads the page again.',
  line: /^`#torrentFilesFilterInput` may not be in the page yet/,
  async run(page, isOther) {
    if (isOther) page.hold(/propertiesToolbar\.html/);
    await page.go();
    await page.requested(/prop-files\.js/);
    await page.until('window.qBittorrent && window.qBittorrent.PropGeneral');
    await page.settle();
    page.release();
    await page.until("document.querySelector('#torrentFilesFilterInput')");
    await page.settle();
    return { files: await page.see('typeof window.qBittorrent.PropFiles') };
  },
  isHarmed: ({ files }) => files === 'undefined',
};
