'use strict';
// The first page of a window that a page opened (a popup). It may have the window of the empty page before it, in which the browser runs no script ahead of it, or
// its driver lets it go before the recorder is set up in it: so the recorder is a script at its begin, which does nothing where it runs already. For
// `Responses` it takes the place of what steers a replay.

const { HOLD_NAME } = require('../browser/content-policy.js');

/** What may stand before the head of a page, and where its content begins. */
const BEGIN = /^\uFEFF?(?:\s|<!--[^]*?-->)*(?:<!doctype[^>]*>)?(?:\s|<!--[^]*?-->)*(?:<html(?:\s[^>]*)?>)?(?:\s|<!--[^]*?-->)*(?:<head(?:\s[^>]*)?>)?/i;
const START = 'typeof __er === "object" ? __er.removeHold(document.currentScript) : document.currentScript.remove();';

/**
 * The offset in a page at which a script can be put before all others. Called by load-steering.js.
 * @param {string} html
 */
const startOf = (html) => (BEGIN.exec(html)?.[0] || '').length;

/** Made by BrowserRecorder. */
class OpenedWindow {
  /**
   * @param {string} address of the page
   * @param {string} source the recorder's script
   */
  constructor(address, source) {
    this.address = address;
    this.source = source;
    this.isInline = true;
  }

  /** It holds no request back. */
  isMet() {
    return false;
  }

  /**
   * The recorder's script, as an insertion at the begin of the window's first page.
   * @param {string} address
   * @param {string} html
   */
  insertions(address, html) {
    if (address !== this.address) return [];
    const start = startOf(html);
    const code = `${START}\n${this.source.replace(/<(?=\/script|!--|script)/gi, '\\x3c')}`;
    return [{ start, end: start, insert: `<script data-er-hold nonce="${HOLD_NAME}">${code}</script>` }];
  }
}

module.exports = { OpenedWindow, startOf };
