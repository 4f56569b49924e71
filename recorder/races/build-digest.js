'use strict';
// The digest that a build puts into a file's name, as `index-BxK3a_9Q.js`: it changes with each build, so no stable name contains it. The hashes of webpack,
// Parcel, esbuild, Angular and others.

/** Six hexadecimal digits and more with a decimal one (webpack, Parcel), anywhere in an address between `-` or `.` and `.`. */
const HEXADECIMAL = /([.-])(?=[0-9a-f]*\d)[0-9a-f]{6,}(?=\.)/gi;
/** What can be a digest of eight letters, digits, `_` and `-`, in the last part of an address. */
const OF_EIGHT = /([.-])([\w-]{8})(?=\.[^/]*$)/g;
/** The digests of esbuild and Angular: capitals, and decimal digits without 0, 1, 8 and 9. */
const BASE_32 = /^[A-Z2-7]{8}$/;
/** Names in one case: parts with `_` or `-` between, or one with a number at its end. */
const PLAIN_NAME = /^(?:[a-z\d]*[_-][a-z\d_-]*|[A-Z]*[_-][A-Z_-]*|(?:[a-z]+|[A-Z]+)\d*)$/;
/** Names of one word or two, of which the second begins with a capital, with a number at their end; and their words. */
const CAMEL_CASE = /^[A-Z]?[a-z]+(?:[A-Z][a-z]+)?\d*$/;
const WORDS = /[A-Z]?[a-z]+/g;

/**
 * Whether eight characters look random. Of a hundred random ones of base64url, which Rollup and Vite use, about one does not.
 * @param {string} text
 */
function isRandom(text) {
  if (BASE_32.test(text)) return true;
  const isCamelCase = CAMEL_CASE.test(text) && (text.match(WORDS) || []).every((word) => /[aeiouy]/i.test(word));
  return !isCamelCase && !PLAIN_NAME.test(text);
}

/**
 * An address with `*` in place of the digests. Called by source-text.js, for stable names; what else is in these: list/lasting.js.
 * @param {string} address without a query
 */
const withoutDigest = (address) => address.replace(HEXADECIMAL, '$1*').replace(OF_EIGHT, (all, sign, text) => (isRandom(text) ? `${sign}*` : all));

module.exports = { withoutDigest };
