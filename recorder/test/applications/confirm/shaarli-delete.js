'use strict';
// Shaarli: the question before a bookmark is deleted is that of a handler which the script at the end of the page sets (shaarli.min.js, confirm-delete).

/** @type {import('../types').Confirmed} */
module.exports = {
  application: 'shaarli',
  loses: 'A click at Delete while the script loads deletes the bookmark for good: the question whether the user is sure does not come.',
  line: /^A click at a\[name=delete_link\] is lost|^A click at a.* is lost/,
  async run(page, isOther) {
    if (isOther) page.hold(/shaarli\.min\.js/);
    await page.go();
    if (!isOther) await page.loaded();
    await page.click('.confirm-delete');
    await page.requestedOrAsked(/\/admin\/shaare\/delete/);
    const isDeleted = page.requests.some((one) => /\/admin\/shaare\/delete/.test(one));
    return { questions: String(page.dialogs.length), deleted: String(isDeleted) };
  },
  isHarmed: ({ questions, deleted }) => questions === '0' && deleted === 'true',
};
