'use strict';
// The list as JUnit XML, as Jenkins and GitLab read it: a test suite for each section of the list, a test case for each problem, which fails if it is new.

/**
 * @typedef {import('./loads-listing.js').LoadsListing} LoadsListing
 * @typedef {import('./listing.js').Listed} Listed
 * @typedef {{part: string, text: string, isFailing: boolean}} Case
 */

/** What XML 1.0 does not allow, and noncharacters. */
const NOT_OF_XML = /[\0-\x08\x0b\x0c\x0e-\x1f\x7f-\x9f\ufffe\uffff]|\p{Cs}/gu;
/** What has a meaning in XML, or is changed in the value of an attribute. */
const MEANS = /[&<>"'\t\n\r]/g;
const CLASS = 'eventracer';

/**
 * A text as an attribute or the content of an element; what XML does not allow becomes `\u{..}`.
 * @param {string} text
 */
function escapeXml(text) {
  const allowed = text.replace(NOT_OF_XML, (one) => `\\u{${(one.codePointAt(0) || 0).toString(16)}}`);
  return allowed.replace(MEANS, (one) => `&#${one.charCodeAt(0)};`);
}

/** @param {{[name: string]: string|number}} values */
const attributes = (values) => Object.entries(values).map(([name, value]) => ` ${name}="${escapeXml(String(value))}"`).join('');

/**
 * A test case has the location and the stable name, so it is the same one after an edit of the page.
 * @param {LoadsListing} listing
 * @param {Listed} problem
 * @param {Set<Listed>} failing
 * @returns {Case}
 */
function caseOf(listing, problem, failing) {
  const { name, look, run, first } = problem;
  const { report, words } = listing.loads[run];
  const location = words.location(report.races[first].location).text;
  const facts = attributes({ classname: `${CLASS}.${look.name.replace(/ /g, '-')}`, name: `${location} [${name}]`.trim(), time: 0 });
  const isFailing = failing.has(problem);
  const inWords = [listing.summaryOf(problem), problem.words, listing.seenInWords(problem)].filter(Boolean).join('\n');
  const failure = isFailing ? `<failure${attributes({ type: look.name, message: problem.words })}>${escapeXml(inWords)}</failure>` : `<system-out>${escapeXml(inWords)}</system-out>`;
  return { part: listing.partOf(problem), text: `<testcase${facts}>${failure}</testcase>`, isFailing };
}

/**
 * The test suite of one page, with its test cases.
 * @param {string} name
 * @param {Case[]} cases
 */
function suiteOf(name, cases) {
  const failures = cases.filter(({ isFailing }) => isFailing).length;
  const facts = attributes({ name, tests: cases.length, failures, errors: 0, skipped: 0, time: 0 });
  return `<testsuite${facts}>\n${cases.map(({ text }) => text).join('\n')}\n</testsuite>`;
}

/**
 * A report without a test case is an error of some readers, so a list without a problem is one that passes. Called by loads.js.
 * @param {LoadsListing} listing
 */
function junitOf(listing) {
  const failing = new Set(listing.failing());
  const cases = listing.lines.map((problem) => caseOf(listing, problem, failing));
  if (!cases.length) cases.push({ part: 'no race', text: `<testcase${attributes({ classname: CLASS, name: 'no race', time: 0 })}/>`, isFailing: false });
  const parts = [...new Set(cases.map(({ part }) => part))];
  const facts = attributes({ name: 'EventRacer', tests: cases.length, failures: failing.size, errors: 0, time: 0 });
  const suites = parts.map((part) => suiteOf(part, cases.filter((one) => one.part === part)));
  return `<?xml version="1.0" encoding="UTF-8"?>\n<testsuites${facts}>\n${suites.join('\n')}\n</testsuites>\n`;
}

module.exports = { junitOf, escapeXml };
