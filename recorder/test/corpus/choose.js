#!/usr/bin/env node
'use strict';
// choose.js [--out FILE] FOLDER: makes the list of the evaluation's pages, corpus.json, by its rule (rule.js). Fetches packages into FOLDER as apt knows
// them (`apt-get update` is the caller's), unpacks them there, and installs nothing; what FOLDER has is not fetched again.

const fs = require('node:fs');
const path = require('node:path');
const { writeWhole } = require('../../common/whole-file.js');
const { availablePackages, needsOf, Unpacked } = require('./packages.js');
const { candidatesOf, isPage, pagesOf } = require('./rule.js');
const { scriptsOf } = require('./script-sizes.js');

const LEAST_FETCHED = 10;
const LIST = path.join(__dirname, '..', 'corpus.json');

/**
 * @typedef {import('./packages.js').Package} Package
 * @typedef {import('./types').PageOfPackage} PageOfPackage
 * @typedef {import('./types').ListedPackage & {pages: PageOfPackage[]}} Chosen
 */

/**
 * A page of a package with its scripts.
 * @param {string} file
 * @param {string} root
 * @returns {PageOfPackage}
 */
function look(file, root) {
  const html = fs.readFileSync(path.join(root, file), 'latin1');
  return { page: file, size: html.length, ...scriptsOf(html, path.join(root, file), root) };
}

/**
 * The pages of a package that are chosen; none where it has no scripts.
 * @param {string} name
 * @param {Unpacked} unpacked
 */
async function lookAt(name, unpacked) {
  const files = (await unpacked.filesOf(name)).filter((file) => isPage(file) && fs.existsSync(path.join(unpacked.root, file)));
  return pagesOf(files.map((file) => look(file, unpacked.root)));
}

/**
 * Takes packages of a kind until it has enough. Several are fetched at once, since each call of apt-get takes seconds.
 * @param {{kind: string, most: number, candidates: string[]}} kind
 * @param {Map<string, Package>} packages
 * @param {Unpacked} unpacked
 */
async function chooseKind({ kind, most, candidates }, packages, unpacked) {
  /** @type {Chosen[]} */
  const chosen = [];
  const left = [...candidates];
  while (chosen.length < most && left.length) {
    const some = left.splice(0, Math.max(most - chosen.length, LEAST_FETCHED));
    await unpacked.add([...new Set(some.flatMap((name) => [name, ...needsOf(name, packages)]))]);
    for (const name of some) {
      const pages = await lookAt(name, unpacked);
      if (pages.length && chosen.length < most) chosen.push({ kind, package: name, version: await unpacked.versionOf(name), needs: needsOf(name, packages), pages });
    }
  }
  console.error(`${kind}: ${chosen.length} packages with ${chosen.reduce((sum, { pages }) => sum + pages.length, 0)} pages, of ${candidates.length - left.length} looked at`);
  return chosen;
}

/**
 * The list as a file that is read: a line for each package and for each page.
 * @param {Chosen[]} chosen
 */
function listOf(chosen) {
  const packages = chosen.map(({ kind, package: name, version, needs }) => JSON.stringify({ kind, package: name, version, needs }));
  const pages = chosen.flatMap(({ package: name, pages: own }) => own.map(({ page, bytes }) => JSON.stringify({ package: name, page, bytes })));
  const list = (/** @type {string[]} */ lines) => `[\n    ${lines.join(',\n    ')}\n  ]`;
  return `{\n  "rule": "docs/evaluation.md, \\"The pages\\": made by recorder/test/corpus/choose.js",\n  "packages": ${list(packages)},\n  "pages": ${list(pages)}\n}\n`;
}

/** @param {string[]} words */
async function main(words) {
  const out = words[0] === '--out' ? words.splice(0, 2)[1] : LIST;
  if (words.length !== 1) {
    console.error('usage: choose.js [--out FILE] FOLDER');
    return 2;
  }
  const packages = await availablePackages();
  const unpacked = new Unpacked(path.resolve(words[0]));
  /** @type {Chosen[]} */
  const chosen = [];
  for (const kind of candidatesOf(packages)) chosen.push(...await chooseKind(kind, packages, unpacked));
  writeWhole(out, listOf(chosen));
  return 0;
}

main(process.argv.slice(2)).then((status) => { process.exitCode = status; });
