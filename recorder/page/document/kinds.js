// The kind of an element as the format has it (docs/recording.md, "The document and the parser"): what its run or its load is ordered by. A script is blocking,
// `async`, `defer`, a module or inserted; a style sheet, an image, a frame.

import { settings } from '../core/settings.js';
import { PATTERNS, fits } from '../core/strings.js';
import { apply } from '../core/taken.js';
import { HTML_NAMESPACE } from '../core/things.js';

const SVG_NAMESPACE = 'http://www.w3.org/2000/svg';

/** Made by page/page.js, as its `kinds`. */
class Kinds {
  /** @param {import('../types').Natives} natives */
  constructor(natives) {
    this.natives = natives;
  }

  /**
   * The value of an attribute, by the browser's own function. Called by elements.js and page/scripts/broken.js.
   * @param {Element} element
   * @param {string} name
   * @returns {string|null}
   */
  attribute(element, name) {
    return apply(this.natives.getAttribute, element, [name]);
  }

  /**
   * Whether an element has an attribute, by the browser's own function. Called by elements.js.
   * @param {Element} element
   * @param {string} name
   * @returns {boolean}
   */
  has(element, name) {
    return apply(this.natives.hasAttribute, element, [name]);
  }

  /**
   * The kind of an element of this window, as a word of the format: `plain`, `image`, `async`, .. Called by elements.js, sources.js and
   * page/scripts/insertions.js.
   * @param {Element} element
   * @param {boolean} isStatic whether the parser made it
   */
  of(element, isStatic) {
    const isOfSvg = element.namespaceURI === SVG_NAMESPACE;
    const isOfHtml = element.namespaceURI === HTML_NAMESPACE;
    if (element.localName === 'script' && (isOfHtml || (isOfSvg && element.ownerDocument.contentType === 'text/html'))) {
      return isStatic ? this.ofStaticScript(element) : this.ofInsertedScript(element);
    }
    if (!isOfHtml) return isOfSvg && element.localName === 'image' ? 'image' : 'plain';
    switch (element.localName) {
      case 'img': return this.isLazy(element) ? 'plain' : 'image';
      case 'link': return fits(/\bstylesheet\b/i, this.attribute(element, 'rel') || '') ? 'image' : 'plain';
      case 'input': return fits(/^image$/i, this.attribute(element, 'type') || '') ? 'image' : 'plain';
      case 'iframe': return this.isLazy(element) ? 'plain' : 'frame';
      case 'frame': return 'frame';
      case 'style': return isStatic ? 'image' : 'plain';
      case 'object': return this.has(element, 'data') ? 'frame' : 'plain';
      case 'embed': return this.has(element, 'src') ? 'frame' : 'plain';
      default: return 'plain';
    }
  }

  /**
   * The window's load does not wait for what the browser fetches once it comes into view. Called by elements.js, loading.js and sources.js.
   * @param {Element} element
   */
  isLazy(element) {
    return fits(/^lazy$/i, this.attribute(element, 'loading') || '');
  }

  /**
   * Null for a data block and for a script that never runs. In SVG, Chromium does not read `nomodule`.
   * @param {Element} element
   * @returns {'classic'|'module'|null}
   */
  scriptType(element) {
    const isOfSvg = element.namespaceURI === SVG_NAMESPACE;
    const type = settings.scriptType(this.attribute(element, 'type'), isOfSvg ? null : this.attribute(element, 'language'), PATTERNS);
    return type === 'importmap' || (type === 'classic' && !isOfSvg && this.has(element, 'nomodule')) ? null : type;
  }

  /**
   * Whether a script is in a file of its own. Called by page/scripts/broken.js, page/scripts/inserted-modules.js and page/scripts/insertions.js.
   * @param {Element} element
   */
  hasSource(element) {
    return element.namespaceURI === SVG_NAMESPACE ? this.has(element, 'href') || this.has(element, 'xlink:href') : this.has(element, 'src');
  }

  /**
   * The kind of a script element that the parser made. One with an empty source never runs, and nothing waits for its error. In SVG, Chromium reads `async`,
   * and not `defer`. Called by tree.js.
   * @param {Element} element
   */
  ofStaticScript(element) {
    const type = this.scriptType(element);
    if (!type || (element.namespaceURI === HTML_NAMESPACE && this.attribute(element, 'src') === '')) return 'plain';
    if (type === 'module') return this.has(element, 'async') ? 'async' : 'defer';
    if (!this.hasSource(element)) return 'inline';
    if (this.has(element, 'async')) return 'async';
    return element.namespaceURI === HTML_NAMESPACE && this.has(element, 'defer') ? 'defer' : 'sync';
  }

  /**
   * An inline script that a script inserts runs inside the running action, so it has no run of its own. Called by page/scripts/insertions.js.
   * @param {Element} element
   */
  ofInsertedScript(element) {
    const type = this.scriptType(element);
    if (type === 'module') return 'async';
    return type && (this.hasSource(element) || !element.textContent) ? 'async' : 'plain';
  }
}

export { Kinds };
