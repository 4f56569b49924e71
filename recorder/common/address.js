'use strict';
// Web addresses: what of them may be shown (without user and password), and which server they are of.

/** @typedef {{user: string, password: string}} Credentials */

/** An address with a user, and perhaps a password, before its host. */
const WITH_CREDENTIALS = /^([a-z][a-z\d+.-]*:\/\/)([^/?#\\]*)@/i;

/**
 * An address without `user:password@`: for each address that becomes a name or is printed.
 * @param {string} address
 */
const withoutCredentials = (address) => address.replace(WITH_CREDENTIALS, '$1');

/** Stands for a secret. */
const HIDDEN = '__hidden__';
/** An address with a query or a fragment, in a text. */
const WITH_QUERY = /(?:\b[a-z][a-z\d+.-]*:\/\/|(?<![\w/.])\.{0,2}\/)[^\s"'<>\\?#]*[?#][^\s"'<>\\]*/gi;
/** A parameter that is a secret by its name. */
const TOKEN = /([?&;#](?:[\w.-]*(?:token|passw(?:or)?d|secret|session|api[_-]?key|jwt|credential|signature)[\w.-]*|(?:\w+[_.-])?(?:key|auth|sig|pwd|pass|sid|code|otp))=)[^&;#]+/gi;

/**
 * A text whose addresses have no tokens: the values of parameters whose names say that they are secret. Called by secrets.js.
 * @param {string} text
 */
const withoutTokens = (text) => (/[?#]/.test(text) ? text.replace(WITH_QUERY, (address) => address.replace(TOKEN, `$1${HIDDEN}`)) : text);

/**
 * The values of an address's parameters that are secret by their names. Called by options/secrets-of.js.
 * @param {string} address
 */
const tokensOf = (address) => [...address.matchAll(TOKEN)].map(([all, before]) => decoded(all.slice(before.length)));

/**
 * A part of an address with its escapes read (`%20`).
 * @param {string} text
 */
function decoded(text) {
  try {
    return decodeURIComponent(text);
  } catch {
    return text; // no escapes: the text itself
  }
}

/**
 * The user and the password of an address, or null.
 * @param {string} address
 * @returns {Credentials|null}
 */
function credentialsOf(address) {
  const found = WITH_CREDENTIALS.exec(address);
  if (!found) return null;
  const [user, ...password] = found[2].split(':');
  return { user: decoded(user), password: decoded(password.join(':')) };
}

/**
 * The origin of an address of a web server, or null. Called by browser/local-server.js, browser/responses/own-origin.js and driven/flow-recorder.js.
 * @param {string} address
 */
function originOf(address) {
  try {
    const { protocol, origin } = new URL(address);
    return /^https?:$/.test(protocol) ? origin : null;
  } catch {
    return null; // no address
  }
}

module.exports = { HIDDEN, withoutTokens, tokensOf, withoutCredentials, credentialsOf, originOf };
