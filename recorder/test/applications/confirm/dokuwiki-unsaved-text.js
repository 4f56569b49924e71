'use strict';
// DokuWiki's editor: what a user typed before its script has loaded counts as the saved text (edit.js, doku_edit_text_content), so no warning comes.

/** @type {import('../types').Confirmed} */
module.exports = {
  application: 'dokuwiki',
  loses: 'A text that was typed while a slow script loaded is lost without the warning that it is not saved, when the user goes to another page.',
  line: /^A change at textarea#wiki__text is lost/,
  async run(page, isOther) {
    if (isOther) page.hold(/lib\/exe\/js\.php/);
    await page.go();
    await page.until("document.querySelector('#wiki__text')");
    if (!isOther) await page.loaded();
    await page.click('#wiki__text');
    await page.type('A long new text. ');
    page.release();
    await page.loaded();
    await page.settle();
    await page.click('#dokuwiki__header h1 a');
    await page.settle();
    return { warnings: String(page.dialogs.filter((type) => type === 'beforeunload').length), address: await page.see('location.search') };
  },
  isHarmed: ({ warnings, address }) => warnings === '0' && !/do=edit/.test(address),
};
