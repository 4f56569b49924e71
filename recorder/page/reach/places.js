// Whether a pointer finds an element, as the browser says: `pointer-events`, size, clips, and others that lie over it (an overlay).

import { findItem } from '../core/lists.js';
import { fits } from '../core/strings.js';
import { Number, WeakMap, apply } from '../core/taken.js';
import { HTML_NAMESPACE } from '../core/things.js';

/** What a user aims at: only of these it is asked whether a pointer finds them. */
const AIMED_AT = 'a[href],button,input,select,textarea,summary,label,[onclick],[onmousedown],[role],[tabindex]';
const PARTS_OF_AIM = `:is(${AIMED_AT}) *`;
/** All questions about places together take at most this many milliseconds, except the first ones: a busy machine has time for these too. */
const LONGEST_LOOK = 200;
const FREE_QUESTIONS = 50;
/** `nodeType` of a shadow root. */
const FRAGMENT = 11;
/**
 * Where a pointer is tried inside a box.
 * @type {[number, number][]}
 */
const SPOTS = [[0.5, 0.5], [0.1, 0.1], [0.9, 0.1], [0.1, 0.9], [0.9, 0.9]];

/**
 * Styles without which an element has no layer of its own.
 * @type {[name: string, value: string][]}
 */
const NO_LAYER = [['position', 'static'], ['zIndex', 'auto'], ['opacity', '1'], ['transform', 'none'], ['translate', 'none'], ['rotate', 'none'], ['scale', 'none'],
  ['filter', 'none'], ['backdropFilter', 'none'], ['perspective', 'none'], ['clipPath', 'none'], ['maskImage', 'none'], ['webkitMaskImage', 'none'],
  ['mixBlendMode', 'normal'], ['isolation', 'auto'], ['contain', 'none'], ['containerType', 'normal'], ['contentVisibility', 'visible'], ['willChange', 'auto'],
  ['offsetPath', 'none'], ['viewTransitionName', 'none']];

/** A part of `Reach`. */
class Places {
  /** @param {import('../types').Page} page */
  constructor(page) {
    this.page = page;
    this.natives = page.natives;
    this.lookTime = 0;
    this.questions = 0;
    /**
     * By element: when it came. What code puts into the page between two looks comes at once.
     * @type {WeakMap<Element, number>}
     */
    this.times = new WeakMap();
    this.time = 0;
    /**
     * What fills the window, asked once a look: undefined before.
     * @type {Element|null|undefined}
     */
    this.curtain = undefined;
  }

  /** A look begins. Called by reach.js. */
  begin() {
    this.time++;
    this.curtain = undefined;
  }

  /**
   * Notes when an element came, for `wasThereBefore`: each of the parser's has a time of its own. Called by reach.js.
   * @param {Element} element
   * @param {boolean} isMade whether code has put it there
   */
  noteAdded(element, isMade) {
    if (!isMade) this.time++;
    this.times.set(element, this.time);
    if (!isMade) this.time++;
  }

  /**
   * Whether an element was there when another one came: it is before that one in a page that the parser makes, or code put it there before, or with it.
   * @param {Element} over
   * @param {Element} element
   */
  #wasThereBefore(over, element) {
    const first = this.times.get(over);
    const second = this.times.get(element);
    return first !== undefined && second !== undefined && first <= second;
  }

  /** Whether the questions have taken too long for a further one. Called by reach.js. */
  isExhausted() {
    return this.lookTime > LONGEST_LOOK && this.questions > FREE_QUESTIONS;
  }

  /**
   * Whether a user aims at an element: a control, a link, or a part of one. Called by reach.js.
   * @param {Element} element
   */
  isAimedAt(element) {
    return apply(this.natives.matches, element, [AIMED_AT]) || apply(this.natives.matches, element, [PARTS_OF_AIM]);
  }

  /**
   * Whether a pointer finds an element, now or when the user scrolls. In doubt it does. Called by reach.js.
   * @param {Element} element
   */
  isForPointer(element) {
    const { natives } = this;
    const began = natives.now();
    this.questions++;
    const isFound = natives.getComputedStyle(element).pointerEvents !== 'none' && this.#hasPlace(element);
    this.lookTime += natives.now() - began;
    return isFound;
  }

  /**
   * Whether a pointer can find an element by its own box: its size, its place, and what lies over it.
   * @param {Element} element
   */
  #hasPlace(element) {
    const { natives, page: { window } } = this;
    const style = natives.getComputedStyle(element);
    if (element.namespaceURI !== HTML_NAMESPACE || style.display === 'contents') return true;
    const box = apply(natives.getBoundingClientRect, element, []);
    if (!(box.width > 0 && box.height > 0)) return style.overflow === 'visible' && apply(natives.firstChild, element, []) !== null;
    if (style.overflow === 'visible' && element.firstElementChild) return true; // what is in it can be shown elsewhere
    if (box.right + window.scrollX <= 0 || box.bottom + window.scrollY <= 0) return false;
    return !this.#isClipped(element, box) && !this.#isUnderOther(element, box) && !this.#isUnderCurtain(element);
  }

  /**
   * Whether an element without a scroll bar shows nothing of a box.
   * @param {Element} element
   * @param {DOMRect} box
   */
  #isClipped(element, box) {
    const { natives } = this;
    for (let one = parentOf(natives, element); one && one.nodeType === 1; one = parentOf(natives, one)) {
      const { overflowX, overflowY, position } = natives.getComputedStyle(one);
      if (position === 'fixed' || fits(/auto|scroll/, overflowX + overflowY)) return false;
      if (overflowX === 'visible' && overflowY === 'visible') continue;
      if (natives.getComputedStyle(element).position !== 'static') return false; // it may stand outside of what clips
      const clip = apply(natives.getBoundingClientRect, one, []);
      if (clip.height === 0 || clip.width === 0 || box.top >= clip.bottom || box.bottom <= clip.top || box.left >= clip.right || box.right <= clip.left) return true;
    }
    return false;
  }

  /**
   * Whether another element, that was there before it, lies over all of a box.
   * @param {Element} element
   * @param {DOMRect} box
   */
  #isUnderOther(element, box) {
    const { page: { window, document }, natives } = this;
    if (box.top < 0 || box.left < 0 || box.bottom > window.innerHeight || box.right > window.innerWidth) return false;
    const at = (/** @type {number[]} */ { 0: x, 1: y }) => apply(natives.elementFromPoint, document, [box.left + x * box.width, box.top + y * box.height]);
    const first = at(SPOTS[0]);
    if (!first || apply(natives.contains, element, [first]) || apply(natives.contains, first, [element])) return false;
    const over = this.#outermostOver(first, element);
    if (!this.#wasThereBefore(over, element) || !this.#wasThereBefore(first, element)) return false;
    return this.#liesOver(over, box) && !findItem(SPOTS, (spot) => !apply(natives.contains, over, [at(spot)]));
  }

  /**
   * The outermost element over a point that does not contain the wanted one: what covers it.
   * @param {Element} hit
   * @param {Element} element
   */
  #outermostOver(hit, element) {
    let over = hit;
    for (let one = /** @type {Element|null} */ (hit); one && one.nodeType === 1 && !apply(this.natives.contains, one, [element]); one = parentOf(this.natives, one)) over = one;
    return over;
  }

  /**
   * What is fixed lies over it only as long as nobody scrolls, except if it fills the window.
   * @param {Element} over
   * @param {DOMRect} box
   */
  #liesOver(over, box) {
    const { natives } = this;
    const { left, top, right, bottom } = apply(natives.getBoundingClientRect, over, []);
    if (left > box.left || top > box.top || right < box.right || bottom < box.bottom) return false;
    if (natives.getComputedStyle(over).position !== 'fixed') return true;
    return this.#fillsWindow({ left, top, right, bottom });
  }

  /**
   * Whether a box fills the window, except its scroll bars.
   * @param {{left: number, top: number, right: number, bottom: number}} box
   */
  #fillsWindow({ left, top, right, bottom }) {
    const { documentElement, body, compatMode } = this.page.document;
    const { clientWidth, clientHeight } = compatMode === 'CSS1Compat' || !body ? documentElement : body;
    return left <= 0 && top <= 0 && right >= clientWidth && bottom >= clientHeight;
  }

  // ---- out of view

  /**
   * Whether something that fills the window and does not scroll lies over an element wherever a user scrolls: what is in nothing that has a layer of
   * its own is painted below each positioned element.
   * @param {Element} element
   */
  #isUnderCurtain(element) {
    if (this.curtain === undefined) this.curtain = this.#findCurtain();
    const { curtain, natives } = this;
    if (!curtain || !this.#wasThereBefore(curtain, element) || apply(natives.contains, curtain, [element])) return false;
    return !this.#isInLayer(element);
  }

  /**
   * An element that fills the window and lies over everything (a curtain, as a loading screen), or null.
   * @returns {Element|null}
   */
  #findCurtain() {
    const { natives, page: { window, document } } = this;
    const at = (/** @type {number[]} */ { 0: x, 1: y }) => apply(natives.elementFromPoint, document, [x * window.innerWidth, y * window.innerHeight]);
    let curtain = at(SPOTS[0]);
    while (curtain && curtain.nodeType === 1 && natives.getComputedStyle(curtain).position !== 'fixed') curtain = parentOf(natives, curtain);
    if (!curtain || curtain.nodeType !== 1 || !(Number(natives.getComputedStyle(curtain).zIndex) >= 0 || natives.getComputedStyle(curtain).zIndex === 'auto')) return null;
    if (!this.#fillsWindow(apply(natives.getBoundingClientRect, curtain, []))) return null;
    if (findItem(SPOTS, (spot) => !apply(natives.contains, /** @type {Element} */ (curtain), [at(spot)]))) return null;
    const parent = parentOf(natives, curtain);
    return parent && this.#isInLayer(parent) ? null : curtain;
  }

  /**
   * Whether an element, or one around it except the root, has a layer of its own.
   * @param {Element} element
   */
  #isInLayer(element) {
    const { natives, page: { document } } = this;
    for (let one = /** @type {Element|null} */ (element); one && one.nodeType === 1 && one !== document.documentElement; one = parentOf(natives, one)) {
      if (this.#hasLayer(one)) return true;
    }
    return false;
  }

  /**
   * Whether an element can be painted above others that come later in the page. In doubt it can.
   * @param {Element} element
   */
  #hasLayer(element) {
    const style = /** @type {{[name: string]: any}} */ (this.natives.getComputedStyle(element)); // some have no type yet
    return !!findItem(NO_LAYER, ({ 0: name, 1: value }) => style[name] !== undefined && style[name] !== value) || this.#isOnTop(element);
  }

  /**
   * Whether an element is above all others: a popover, a dialog, what fills the screen.
   * @param {Element} element
   */
  #isOnTop(element) {
    return apply(this.natives.matches, element, [':is(dialog, [popover], :fullscreen)']);
  }
}

/**
 * The parent of a node; of a shadow tree, its host. Called by reach.js.
 * @param {import('../types').Natives} natives
 * @param {Node} node
 * @returns {Element|null}
 */
function parentOf(natives, node) {
  const parent = apply(natives.parentNode, node, []);
  return /** @type {Element|null} */ (parent && parent.nodeType === FRAGMENT ? /** @type {ShadowRoot} */ (parent).host : parent);
}

export { Places, parentOf };
