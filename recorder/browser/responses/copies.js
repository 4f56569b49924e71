'use strict';
// The instrumented copies of pages and scripts, which the browser gets in place of the originals. Which headers of a response stay, which are removed
// (`content-length`, `content-type`, `sourcemap`), and which change (CSP).

const { withoutCommands } = require('../../common/shown.js');
const { policyWithMarks, hasTypes, holdAt, isOfIntegrity } = require('../content-policy.js');
const { readText } = require('../text.js');
const { withoutHash } = require('../../common/request-address.js');
const { valueOf } = require('./paused.js');

/**
 * @typedef {import('./paused.js').Paused} Paused
 * @typedef {import('./paused.js').Header} Header
 * @typedef {import('./paused.js').Holds} Holds
 * @typedef {import('./paused.js').Texts} Texts
 */

/** By the content type of a response: what becomes an instrumented copy. */
const PAGE_TYPE = /^text\/html\b/i;
const XML_PAGE_TYPE = /^(application\/xhtml\+xml|image\/svg\+xml|(text|application)\/xml)\b/i;
const SCRIPT_TYPE = /javascript|ecmascript|^text\/plain\b|^application\/octet-stream\b/i;
/** Headers that are about the bytes of the original. */
const DROPPED_HEADERS = /^(content-length|content-encoding|transfer-encoding|content-type|sourcemap|x-sourcemap)$/i;
const POLICY_HEADER = /^content-security-policy(-report-only)?$/i;
const TRUSTED_TYPES = 'trusted types of content policies';
/** Characters of a reason in a line "not recorded". */
const LONGEST_REASON = 100;

/** @param {number|undefined} status */
const hasBody = (status) => status !== undefined && status >= 200 && status < 300 && status !== 204;

/** An interceptor: `Responses` calls `passResponse` for each response that is paused. */
class Copies {
  /**
   * @param {import('../tab.js').Tab} tab
   * @param {{sources: Texts|null, holds: Holds|null, longest: number, beforePage: (address: string) => Promise<void>,
   *   keep?: {takeText: (event: Paused, bytes: Buffer) => void}|null}} options without `sources` all passes as it is; a file that takes longer than `longest`
   *   milliseconds does not come; `keep` gets the bytes of each text
   */
  constructor(tab, { sources, holds, longest, beforePage, keep = null }) {
    this.tab = tab;
    this.keep = keep;
    this.sources = sources;
    this.holds = holds;
    this.longest = longest;
    this.beforePage = beforePage;
    this.hasPageBegun = false;
    /**
     * The encoding of the page if scripts that name none have to be read in it.
     * @type {string|null}
     */
    this.encodingOfPage = null;
  }

  /**
   * Answers with the instrumented copy of a page or a script.
   * @param {Paused} event
   */
  async passResponse(event) {
    const type = valueOf(event.responseHeaders, 'content-type');
    if (!this.isMarked(event, event.responseStatusCode, type)) return false;
    await this.beginPage(event);
    const { body, base64Encoded } = await this.tab.send('Fetch.getResponseBody', { requestId: event.requestId }, this.longest);
    const bytes = Buffer.from(body, base64Encoded ? 'base64' : 'utf8');
    this.keep?.takeText(event, bytes);
    await this.fulfill(event, Number(event.responseStatusCode), event.responseHeaders || [], type, bytes);
    return true;
  }

  /**
   * Answers a request of a replay as a server has answered it. Called by keep-answers.js.
   * @param {Paused} event
   * @param {number} status
   * @param {Header[]} headers
   * @param {string} type
   * @param {Buffer} bytes
   */
  async answer(event, status, headers, type, bytes) {
    if (this.isMarked(event, status, type)) await this.beginPage(event);
    await this.fulfill(event, status, headers, type, bytes);
  }

  /**
   * @param {Paused} event
   * @param {number|undefined} status
   * @param {string} type
   */
  isMarked(event, status, type) {
    return this.sources !== null && hasBody(status) && this.isText(event, type);
  }

  /**
   * Called for the first page that comes: what it needs of the browser is read before its copy is made.
   * @param {Paused} event the page, or what comes before it
   */
  async beginPage(event) {
    if (!this.hasPageBegun) await this.beforePage(event.request.url);
    this.hasPageBegun = true;
  }

  /**
   * Whether a response is a page or a script, by its type.
   * @param {Paused} event
   * @param {string} type
   */
  isText(event, type) {
    if (event.resourceType === 'Document') return this.isPage(type);
    return event.resourceType === 'Script' && (type === '' || SCRIPT_TYPE.test(type));
  }

  /**
   * Marks would break the texts of an XML page, so its inline scripts stay as they are.
   * @param {string} type
   */
  isPage(type) {
    if (XML_PAGE_TYPE.test(type) && this.sources) this.sources.missed.set('XML pages, as XHTML and SVG, with their inline scripts', 1);
    return PAGE_TYPE.test(type);
  }

  /**
   * Answers a request; pages and scripts are instrumented before. One that can not be is answered with its own bytes. Called by folder-answers.js.
   * @param {Paused} event
   * @param {number} status
   * @param {Header[]} headers
   * @param {string} type
   * @param {Buffer} bytes
   */
  async fulfill(event, status, headers, type, bytes) {
    const copy = this.sources && status === 200 && this.isText(event, type) ? this.copyOf(this.sources, event, headers, type || 'text/javascript', bytes) : null;
    const answer = copy || { headers, type, body: bytes };
    await this.tab.send('Fetch.fulfillRequest', {
      requestId: event.requestId,
      responseCode: status,
      responseHeaders: [...answer.headers.filter(({ name }) => !DROPPED_HEADERS.test(name)), ...(answer.type ? [{ name: 'content-type', value: answer.type }] : [])],
      body: answer.body.toString('base64'),
    });
  }

  /**
   * The copy of a page or a script; null if it can not be instrumented, which is counted.
   * @param {Texts} sources
   * @param {Paused} event
   * @param {Header[]} headers
   * @param {string} type
   * @param {Buffer} bytes
   */
  copyOf(sources, event, headers, type, bytes) {
    try {
      const copy = this.instrument(sources, event, type, bytes);
      const map = valueOf(headers, 'sourcemap') || valueOf(headers, 'x-sourcemap');
      if (map) sources.nameMap(withoutHash(event.request.url), map);
      return { ...copy, headers: withoutIntegrity(sources, headers).map((one) => (POLICY_HEADER.test(one.name) ? this.policyOfCopy(sources, event, one) : one)) };
    } catch (fault) {
      countFault(sources, fault);
      return null;
    }
  }

  /**
   * A header of a content policy for the copy of a page. Trusted types are dropped and counted, since marks are no such texts.
   * @param {Texts} sources
   * @param {Paused} event
   * @param {Header} header
   */
  policyOfCopy(sources, { request }, { name, value }) {
    if (hasTypes(value)) sources.count(sources.dropped, TRUSTED_TYPES);
    return { name, value: policyWithMarks(value, sources.markedTexts, this.holds && holdAt(request.url, this.holds.isInline)) };
  }

  /**
   * The copy and its content type: the browser reads it as it would have read the original.
   * @param {Texts} sources
   * @param {Paused} event
   * @param {string} type
   * @param {Buffer} bytes
   */
  instrument(sources, event, type, bytes) {
    const isPage = event.resourceType === 'Document';
    const { text, write, charset, ofScripts } = readText(bytes, type, isPage, isPage ? null : this.encodingOfPage);
    if (ofScripts) this.encodingOfPage = ofScripts;
    const address = withoutHash(event.request.url);
    const { holds } = this;
    /** @type {import('./paused.js').MakeInsertions|undefined} */
    const insertions = holds ? (one, html) => holds.insertions(one, html) : undefined;
    const marked = isPage ? sources.rewritePage(address, text, insertions) : sources.rewriteScript(address, text);
    return { body: write(marked), type: charset ? `${type.replace(/;.*$/, '')}; charset=${charset}` : type };
  }
}

/**
 * The headers without the policies that refuse scripts without `integrity`, which their copies lack.
 * @param {Texts} sources
 * @param {Header[]} headers
 */
function withoutIntegrity(sources, headers) {
  const left = headers.filter(({ name }) => !isOfIntegrity(name));
  if (left.length < headers.length) sources.count(sources.dropped, 'integrity policies');
  return left;
}

/**
 * A file that cannot be marked goes on as it came, and is counted with the reason.
 * Called by browser/responses.js.
 * @param {Texts} sources
 * @param {unknown} fault
 */
function countFault(sources, fault) {
  const reason = withoutCommands(fault instanceof Error ? fault.message : fault).slice(0, LONGEST_REASON);
  sources.count(sources.missed, `files that could not be marked (${reason})`);
}

module.exports = { Copies, countFault };
