'use strict';
// A session with an application, as a browser without scripts has it: requests with cookies, and forms. Its state is a file for --storage-state.

const HIDDEN = /<input\b[^>]*>/gi;
const MOST_STEPS = 10;

/**
 * An attribute of a tag.
 * @param {string} tag
 * @param {string} name
 */
function attributeOf(tag, name) {
  const found = new RegExp(`\\s${name}\\s*=\\s*(?:"([^"]*)"|'([^']*)'|([^\\s"'>]+))`, 'i').exec(tag);
  const value = found && (found[1] ?? found[2] ?? found[3]);
  return value && value.replace(/&quot;/g, '"').replace(/&#0?39;/g, "'").replace(/&lt;/g, '<').replace(/&gt;/g, '>').replace(/&amp;/g, '&');
}

/**
 * The names and values of the hidden fields of a page, as a token against forged requests is one.
 * @param {string} text
 * @returns {{[name: string]: string}}
 */
function hiddenFields(text) {
  const tags = (text.match(HIDDEN) || []).filter((tag) => attributeOf(tag, 'type')?.toLowerCase() === 'hidden');
  return Object.fromEntries(tags.map((tag) => [attributeOf(tag, 'name') || '', attributeOf(tag, 'value') || '']).filter(([name]) => name));
}

class Session {
  /** @param {string} origin */
  constructor(origin) {
    this.origin = origin;
    /** @type {Map<string, {value: string, path: string}>} */
    this.cookies = new Map();
  }

  /**
   * Takes over the cookies of an answer.
   * @param {Response} response
   */
  take(response) {
    const headers = /** @type {Headers & {getSetCookie: () => string[]}} */ (response.headers);
    for (const line of headers.getSetCookie()) {
      const [pair, ...rest] = line.split(';').map((one) => one.trim());
      const [name, value] = [pair.slice(0, pair.indexOf('=')), pair.slice(pair.indexOf('=') + 1)];
      const path = rest.find((one) => /^path=/i.test(one))?.slice('path='.length) || '/';
      if (/^deleted$/i.test(value) || rest.some((one) => /^max-age=0$/i.test(one))) this.cookies.delete(name);
      else this.cookies.set(name, { value, path });
    }
  }

  /**
   * A request with the session's cookies, and the text of the page that redirects lead to.
   * @param {string} address  from the origin
   * @param {RequestInit} init
   */
  async request(address, init = {}) {
    let next = new URL(address, this.origin);
    let own = init;
    for (let step = 0; step < MOST_STEPS; step++) {
      const cookie = [...this.cookies].map(([name, { value }]) => `${name}=${value}`).join('; ');
      const response = await fetch(next, { ...own, redirect: 'manual', headers: { ...own.headers, ...cookie ? { cookie } : {} } });
      this.take(response);
      const location = response.headers.get('location');
      const text = await response.text();
      if (!location) return { status: response.status, address: next.href, text };
      next = new URL(location, next);
      own = {};
    }
    throw new Error(`${address} redirects without an end`);
  }

  /**
   * Fills in the form of a page, with its hidden fields, and sends it.
   * @param {string} page
   * @param {{[name: string]: string}} fields
   * @param {string} [action]  where it is sent, if not to the page
   */
  async send(page, fields, action = page) {
    const { text } = await this.request(page);
    return this.post(action, { ...hiddenFields(text), ...fields });
  }

  /**
   * @param {string} address
   * @param {{[name: string]: string}} fields
   */
  post(address, fields) {
    return this.request(address, { method: 'POST', body: new URLSearchParams(fields), headers: { referer: `${this.origin}/` } });
  }

  /** The cookies as Playwright's storageState has them. */
  state() {
    const cookies = [...this.cookies].map(([name, { value, path }]) => (
      { name, value, domain: new URL(this.origin).hostname, path, expires: -1, httpOnly: false, secure: false, sameSite: 'Lax' }));
    return { cookies, origins: [] };
  }
}

module.exports = { Session, hiddenFields };
