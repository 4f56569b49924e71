#!/usr/bin/env node
'use strict';
// show.js PAGE.. [options]: the trace of pages of pages/ with names in place of numbers, and its races. For writing tests.

const { Chromium } = require('../browser/chromium.js');
const { recordPage, judge } = require('./support.js');

/** @param {string[]} words */
async function main(words) {
  const pages = words.filter((word) => /\.(html|svg)$/.test(word));
  const options = words.filter((word) => !/\.(html|svg)$/.test(word));
  const browser = await Chromium.launch({ width: 1100, height: 800 });
  try {
    for (const page of pages) {
      const trace = await recordPage(browser, page, options);
      const { refused, races } = judge(trace);
      console.log(`== ${page}`);
      trace.readable.forEach((line, k) => console.log(`${k + 2}\t${line}\t${trace.lines[k]}`));
      console.log([refused, ...races.map((race) => `race ${race}`), ...trace.errors, ...trace.losses].filter(Boolean).join('\n'));
    }
  } finally {
    await browser.close();
  }
}

main(process.argv.slice(2));
