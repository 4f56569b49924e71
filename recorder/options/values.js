'use strict';
// The values of options, checked. What does not fit is a UsageFault whose message names the option. Numbers, patterns, colors, headers, cookies, credentials,
// addresses (URLs), the size of the viewport (`WxH`), the user agent. Used by recording/options.js.

const { parseEndpoint } = require('../browser/attached.js');
const { UsageFault } = require('./parse.js');

/** The characters of a header's name, and those that no value has (RFC 9110). */
const HEADER = /^([\w!#$%&'*+.^`|~-]+):[ \t]*([^\0\r\n]*)$/;

/** The characters of a cookie's name, and those that no value has (RFC 6265). */
const COOKIE = /^([\w!#$%&'*+.^`|~-]+)=([^\0-\x20;\x7f]*)$/;

/**
 * A whole number of at most nine digits. All functions of this file throw a UsageFault with the name of the option.
 * @param {string} name of the option
 * @param {string} value
 * @param {number} [least]
 * @param {number} [most]
 */
function wholeNumber(name, value, least = 0, most = 999999999) {
  const number = /^\d{1,9}$/.test(value) ? Number(value) : NaN;
  if (number >= least && number <= most) return number;
  const range = most < 999999999 ? `from ${least} to ${most}` : least > 0 ? `from ${least} on` : '';
  throw new UsageFault(`${name} takes a whole number${range && ` ${range}`}: ${value}`);
}

/**
 * Any name of a file that is not empty.
 * @param {string} name
 * @param {string} value
 */
function fileName(name, value) {
  if (!value) throw new UsageFault(`${name} takes the name of a file`);
  return value;
}

/**
 * The command of a test suite, which a shell reads.
 * @param {string} name
 * @param {string} value
 */
function suiteCommand(name, value) {
  if (!value.trim()) throw new UsageFault(`${name} takes a command`);
  return value;
}

/**
 * A problem of a list: its place in it, from 1, or its stable name.
 * @param {string} name
 * @param {string} value
 */
function problemName(name, value) {
  if (!/^[1-9]\d{0,5}$|^[0-9a-f]{12}$/.test(value)) throw new UsageFault(`${name} takes the number of a problem, or its name of 12 hexadecimal digits: ${value}`);
  return value;
}

/**
 * A regular expression, or null for none.
 * @param {string} name
 * @param {string} value
 */
function pattern(name, value) {
  if (value === 'none') return null;
  try {
    return new RegExp(value || '(', 'i');
  } catch {
    throw new UsageFault(`${name} takes a regular expression, or none: ${value}`);
  }
}

/**
 * When the list has colors.
 * @param {string} name
 * @param {string} value
 * @returns {'auto'|'always'|'never'}
 */
function colors(name, value) {
  if (value !== 'auto' && value !== 'always' && value !== 'never') throw new UsageFault(`${name} takes auto, always or never: ${value}`);
  return value;
}

/**
 * What is recorded of scripts.
 * @param {string} name
 * @param {string} value
 * @returns {'globals'|'objects'}
 */
function depth(name, value) {
  if (value !== 'globals' && value !== 'objects') throw new UsageFault(`${name} takes globals or objects: ${value}`);
  return value;
}

/**
 * A port of this machine; others are refused.
 * @param {string} name
 * @param {string} value
 */
function endpoint(name, value) {
  const found = parseEndpoint(value);
  if (!found) throw new UsageFault(`${name} takes HOST:PORT of this machine (localhost, 127.0.0.1, [::1]): ${value}`);
  return found;
}

/**
 * A header of HTTP.
 * @param {string} name
 * @param {string} value
 * @returns {[name: string, value: string]}
 */
function header(name, value) {
  const found = HEADER.exec(value);
  if (!found) throw new UsageFault(`${name} takes NAME:VALUE`); // the value may be a secret
  return [found[1], found[2].trim()];
}

/**
 * A user and a password; only the password may contain a colon.
 * @param {string} name
 * @param {string} value
 */
function credentials(name, value) {
  const at = value.indexOf(':');
  if (at < 1) throw new UsageFault(`${name} takes USER:PASSWORD`);
  return { user: value.slice(0, at), password: value.slice(at + 1) };
}

/**
 * Whether a text is an address of HTTP or HTTPS.
 * @param {string} value
 */
function isWebAddress(value) {
  try {
    return /^https?:$/.test(new URL(value).protocol);
  } catch {
    return false; // no address
  }
}

/**
 * A cookie without attributes: it is the page's.
 * @param {string} name
 * @param {string} value
 * @returns {[name: string, value: string]}
 */
function cookie(name, value) {
  const found = COOKIE.exec(value);
  if (!found) throw new UsageFault(`${name} takes NAME=VALUE`); // the value is a secret
  return [found[1], found[2]];
}

/**
 * An address of HTTP or HTTPS.
 * @param {string} name
 * @param {string} value
 */
function webAddress(name, value) {
  if (!isWebAddress(value)) throw new UsageFault(`${name} takes a web address`); // it may have a password
  return value;
}

/**
 * A size of the window, in CSS pixels.
 * @param {string} name
 * @param {string} value
 */
function viewport(name, value) {
  const [, width, height] = /^(\d{2,5})x(\d{2,5})$/.exec(value) || [];
  if (!width) throw new UsageFault(`${name} takes WIDTHxHEIGHT: ${value}`);
  return { width: Number(width), height: Number(height) };
}

/**
 * The text that the browser sends as its name.
 * @param {string} name
 * @param {string} value
 */
function userAgent(name, value) {
  if (!/^[^\0\r\n]+$/.test(value)) throw new UsageFault(`${name} takes one line of text`);
  return value;
}

module.exports = {
  wholeNumber, fileName, pattern, colors, depth, endpoint, header, credentials, webAddress, cookie, viewport, userAgent, suiteCommand,
  problemName,
};
