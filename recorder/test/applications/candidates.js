#!/usr/bin/env node
'use strict';
// candidates.js: prints the packages of which the rule of README.md takes the applications, each with its section, size and description, as apt knows them.

const { availablePackages } = require('../corpus/packages.js');

/** @typedef {import('../corpus/packages.js').Package} Package */

const TAGS = ['interface::web', 'role::program'];
const DESCRIBED = /\bweb[- ]?(?:based|interface|application|app|client|front-?end|ui|admin)/i;
/** Sections of what is no program for users. */
const OTHER_SECTIONS = new Set(['debug', 'devel', 'doc', 'golang', 'haskell', 'java', 'javascript', 'libdevel', 'libs', 'lisp', 'metapackages', 'ocaml',
  'oldlibs', 'perl', 'php', 'python', 'ruby', 'rust']);

/**
 * Whether a package is a candidate.
 * @param {Pick<Package, 'section'|'description'|'tags'>} one
 */
function isCandidate({ section, description, tags }) {
  if (OTHER_SECTIONS.has(section.split('/').slice(-1)[0])) return false;
  return TAGS.every((tag) => tags.includes(tag)) || DESCRIBED.test(description);
}

async function main() {
  const candidates = [...(await availablePackages()).values()].filter(isCandidate).sort((a, b) => (a.name < b.name ? -1 : 1));
  candidates.forEach(({ name, section, description }) => console.log(`${name} (${section}): ${description}`));
}

module.exports = { isCandidate };

if (require.main === module) main();
