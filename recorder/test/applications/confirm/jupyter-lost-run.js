'use strict';
// Jupyter's notebook: a cell that is run before the server has answered with a kernel (CodeCell.prototype.execute: no kernel, no execution).

/** @type {import('../types').Confirmed} */
module.exports = {
  application: 'jupyter-notebook',
  loses: 'A click at Run before the kernel is there does nothing: the cell shows no result, no mark and no message, also later.',
  line: /^The kernel of the object first used at codecell\.js:\d+ may not be set yet/,
  async run(page, isOther) {
    if (isOther) page.hold(/\/api\/sessions/);
    await page.load();
    await page.until("document.querySelectorAll('.code_cell').length > 1");
    if (!isOther) await page.until("document.querySelector('#kernel_indicator_icon.kernel_idle_icon')");
    await page.click('.code_cell .CodeMirror');
    await page.click('#run_int button');
    await page.settle();
    page.release();
    await page.until("document.querySelector('#kernel_indicator_icon.kernel_idle_icon')");
    await page.settle();
    return {
      prompt: await page.see("document.querySelector('.code_cell .input_prompt').textContent"),
      result: await page.see("document.querySelector('.code_cell .output').textContent.trim()"),
    };
  },
  isHarmed: ({ result }) => !/45/.test(result),
};
