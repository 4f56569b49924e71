// Elements of the parser that have no size before they have content, for reach.js: a pointer finds such an element only after the parse step that made its
// first content.

import { findItem } from '../core/lists.js';
import { fits } from '../core/strings.js';
import { apply } from '../core/taken.js';
import { isElement } from '../core/things.js';

/** Kinds of nodes, as `nodeType` has them. */
const TEXT = 3;
const COMMENT = 8;
const BLANK = /^[ \t\n\r\f]*$/;
/** Elements that get a size by their content alone, if no style gives them one. */
const GETS_SIZE = /^(?:a|article|aside|b|center|code|div|em|figure|footer|form|h[1-6]|header|i|label|main|nav|p|section|small|span|strong)$/;
const NONE = /^(?:0px|auto)$/;
/** Which styles give an empty box a size, by its `display`. */
const SIZES = {
  block: ['paddingTop', 'paddingBottom', 'borderTopWidth', 'borderBottomWidth', 'minHeight', 'aspectRatio'],
  inline: ['paddingLeft', 'paddingRight', 'borderLeftWidth', 'borderRightWidth'],
};
const ARRANGES = /flex|grid/;

/** @typedef {CSSStyleDeclaration & {[name: string]: any}} Style */

/** A part of `Reach`. */
class Filled {
  /** @param {import('../types').Page} page */
  constructor(page) {
    this.page = page;
    this.natives = page.natives;
  }

  /**
   * The parse step before which an element had no size, or null. Called by reach.js.
   * @param {Element} element that the parser made, and that no code has changed
   * @returns {import('../types').Moment|null}
   */
  momentOf(element) {
    if (!fits(GETS_SIZE, element.localName)) return null;
    const display = this.#displayOf(element);
    const content = display && this.#firstContent(element, display === 'inline');
    return content ? this.page.tree.steps.get(content) || null : null;
  }

  /**
   * The first element in another one, if no text is before it.
   * @param {Element} element
   * @param {boolean} isInline a blank has a size there
   * @returns {Element|null}
   */
  #firstContent(element, isInline) {
    const { natives } = this;
    const first = findItem(element.childNodes, (node) => {
      const type = apply(natives.nodeType, node, []);
      return type !== COMMENT && (type !== TEXT || isInline || !fits(BLANK, apply(natives.data.get, /** @type {CharacterData} */ (node), [])));
    });
    return first && isElement(first) ? first : null;
  }

  /**
   * `block` or `inline` if the element has no size without content, otherwise ''.
   * @param {Element} element
   * @returns {'block'|'inline'|''}
   */
  #displayOf(element) {
    const { natives } = this;
    const style = /** @type {Style} */ (natives.getComputedStyle(element));
    const { display, position, whiteSpace } = style;
    if ((display !== 'block' && display !== 'inline') || fits(/absolute|fixed/, position) || !fits(/^(?:normal|nowrap)$/, whiteSpace)) return '';
    if (findItem(SIZES[display], (name) => style[name] !== undefined && !fits(NONE, style[name]))) return '';
    if (style.writingMode !== 'horizontal-tb' || this.#hasOtherContent(element)) return '';
    const parent = apply(natives.parentNode, element, []);
    if (!isElement(parent) || fits(ARRANGES, natives.getComputedStyle(parent).display)) return '';
    return display === 'inline' || this.#hasNoHeight(element) ? display : '';
  }

  /** @param {Element} element */
  #hasOtherContent(element) {
    return !!findItem(['::before', '::after'], (part) => !fits(/^(?:none|normal)$/, this.natives.getComputedStyle(element, part).content));
  }

  /**
   * Whether no style gives an element its height.
   * @param {Element} element
   */
  #hasNoHeight(element) {
    const { computedStyleMap, styleOf, styleText } = this.natives;
    if (!computedStyleMap) return false;
    const height = apply(styleOf, apply(computedStyleMap, element, []), ['height']);
    return !!height && apply(styleText, height, []) === 'auto';
  }
}

export { Filled };
