'use strict';
// What the arguments of a command have that no file and no output may have. Cookies, headers, passwords of `--http-credentials` and of typed password fields,
// and what `--redact` matches.

const { tokensOf } = require('../common/address.js');
const { keepSecret, keepHeader, keepCredentials, SHORTEST_FOUND } = require('../common/secrets.js');

/**
 * @typedef {object} Given
 * @property {[name: string, value: string][]} headers
 * @property {{user: string, password: string}|null} credentials
 * @property {[name: string, value: string][]} cookies
 * @property {import('./storage-state.js').StorageState|null} storageState
 * @property {{target: string, text?: string}[]} actions
 */

/** A selector of a field for a password; others are known when the page is there. */
const PASSWORD_FIELD = /passw|pwd|passcode|secret|token|otp/i;

/**
 * Takes note of what no file and no output may have. Called by recording/options.js.
 * @param {Given} options
 * @param {string[]} addresses
 */
function keepSecretsOf({ headers, credentials: user, cookies, storageState, actions }, addresses) {
  addresses.flatMap(tokensOf).forEach((value) => keepSecret(value));
  headers.forEach(keepHeader);
  if (user) keepCredentials(user);
  cookies.forEach(([, value]) => keepSecret(value));
  storageState?.cookies.forEach(({ value }) => keepSecret(value, SHORTEST_FOUND));
  storageState?.origins.forEach(({ localStorage }) => localStorage.forEach(({ value }) => keepSecret(value, SHORTEST_FOUND)));
  actions.forEach(({ target, text }) => { if (text && PASSWORD_FIELD.test(target)) keepSecret(text); });
}

module.exports = { keepSecretsOf };
