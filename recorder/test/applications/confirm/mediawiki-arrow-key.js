'use strict';
// MediaWiki's search (jquery.suggestions.js): an arrow key before the timeout of the last letter picks a suggestion for the text without that letter.

const SHOWN = "[...document.querySelectorAll('.suggestions-results .suggestions-result')].map((one) => one.textContent).join(', ')";

/** @type {import('../types').Confirmed} */
module.exports = {
  application: 'mediawiki',
  loses: 'A user who types fast and presses the arrow key gets another title than the one that fits: the typed letters are replaced.',
  line: /^What is typed into input#searchInput may be overwritten before it is read/,
  async run(page, isOther) {
    await page.load();
    await page.click('#searchInput');
    await page.type('te');
    await page.until(`/Temple/.test(${SHOWN})`);
    await page.type('m');
    if (!isOther) await page.until(`${SHOWN} === 'Temple'`);
    await page.press('ArrowDown');
    await page.settle();
    return { field: await page.see("document.querySelector('#searchInput').value"), suggestions: await page.see(SHOWN) };
  },
  isHarmed: ({ field }) => !/^tem/i.test(field),
};
