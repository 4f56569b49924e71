'use strict';
// DokuWiki's editor: its script puts the cursor at the start of the text when it has loaded (edit.js, DWsetSelection), wherever the user is typing.

/** @type {import('../types').Confirmed} */
module.exports = {
  application: 'dokuwiki',
  loses: 'Letters that a user types after a slow script has loaded go to the start of the page, in the middle of a word.',
  line: /^A focus at textarea#wiki__text is lost/,
  async run(page, isOther) {
    if (isOther) page.hold(/lib\/exe\/js\.php/);
    await page.go();
    await page.until("document.querySelector('#edbtn__save, #wiki__text') && document.querySelector('#wiki__text').value");
    if (!isOther) await page.loaded();
    await page.click('#wiki__text');
    await page.see("document.querySelector('#wiki__text').setSelectionRange(1000, 1000)");
    await page.type('Hel');
    page.release();
    await page.loaded();
    await page.settle();
    await page.type('lo');
    return { text: await page.see("document.querySelector('#wiki__text').value") };
  },
  isHarmed: ({ text }) => !/Hello/.test(text) && /^l?o/.test(text),
};
