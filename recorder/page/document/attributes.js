// What a script sets at an element, by a property or an attribute: what the element loads, and handler attributes. `img.src = ..`, `setAttribute('src', ..)`,
// `script.src`, `link.href`, `integrity`.

import { each, hasItem } from '../core/lists.js';
import { replaceGetter, replaceMethod, replaceProperty } from '../core/replacing.js';
import { hasEnd, lowerCase, sliceOf } from '../core/strings.js';
import { Map, String, WeakMap, apply } from '../core/taken.js';
import { isMedia } from '../core/things.js';

/** What an element loads. */
const SOURCES = [['HTMLScriptElement', 'src'], ['HTMLImageElement', 'src'], ['HTMLImageElement', 'srcset'], ['HTMLSourceElement', 'srcset'], ['HTMLInputElement', 'src'],
  ['HTMLIFrameElement', 'src'], ['HTMLIFrameElement', 'srcdoc'], ['HTMLFrameElement', 'src'], ['HTMLObjectElement', 'data'], ['HTMLEmbedElement', 'src'],
  ['HTMLLinkElement', 'href']];
/** By the element's name: the attributes; `image` is one of SVG. */
const SOURCES_OF = new Map([['script', ['src']], ['img', ['src', 'srcset']], ['source', ['srcset']], ['input', ['src']], ['image', ['href']], ['iframe', ['src', 'srcdoc']],
  ['frame', ['src']], ['object', ['data']], ['embed', ['src']], ['link', ['href']]]);
/** Methods besides `setAttribute` that change an attribute: those that get its name, and those that get its node. */
const BY_NAME = ['removeAttribute', 'toggleAttribute'];
const BY_NODE = ['setAttributeNode', 'setAttributeNodeNS', 'removeAttributeNode'];
const XLINK = 'http://www.w3.org/1999/xlink';
/** What a script with it would lack is its copy, which has another text: it is not set. */
const INTEGRITY = 'integrity attributes that scripts set, dropped';

/** One for each document: `page.attributes`. */
class Attributes {
  /** @param {import('../types').Page} page */
  constructor(page) {
    this.page = page;
    this.recording = page.recording;
    /**
     * The images of SVG, by their `href` as a property gives it.
     * @type {WeakMap<object, Element>}
     */
    this.ofAddresses = new WeakMap();
  }

  /** Hooks what sets sources and other attributes that matter. */
  start() {
    const { window, recording } = this.page;
    each(SOURCES, ({ 0: owner, 1: name }) => this.#replaceSource(window[owner].prototype, name));
    this.#replaceAddress();
    replaceProperty(window.HTMLScriptElement.prototype, 'integrity', () => ({ set() { recording.log.miss(INTEGRITY); } }));
    this.#replaceSetAttribute();
    this.#replaceSetAttributeOfNamespace();
    each(BY_NAME, (name) => this.#replaceChange(name, (given) => given));
    each(BY_NODE, (name) => this.#replaceChange(name, (node) => this.#nameOf(node)));
    this.#replaceChange('removeAttributeNS', (_namespace, given) => given);
  }

  // ---- what an element loads

  /**
   * Hooks a property as `img.src`: what is loaded then is requested by the running action.
   * @param {any} owner its members differ by interface
   * @param {string} name
   */
  #replaceSource(owner, name) {
    const attributes = this;
    replaceProperty(owner, name, (native) => ({
      set(value) {
        attributes.#aroundSource(this, () => apply(native.set, this, [value]));
      },
    }));
  }

  /** `image.href.baseVal` of SVG. */
  #replaceAddress() {
    const attributes = this;
    const { SVGAnimatedString, SVGImageElement } = this.page.window;
    replaceGetter(SVGImageElement.prototype, 'href', (native) => function href() {
      const address = apply(native, this, []);
      attributes.ofAddresses.set(address, this);
      return address;
    });
    replaceProperty(SVGAnimatedString.prototype, 'baseVal', (native) => ({
      set(value) {
        const image = attributes.ofAddresses.get(this);
        if (image) attributes.#aroundSource(image, () => apply(native.set, this, [value]));
        else apply(native.set, this, [value]);
      },
    }));
  }

  /**
   * What an element loads is set.
   * @template T
   * @param {Element} element
   * @param {() => T} call
   * @returns {T}
   */
  #aroundSource(element, call) {
    const { sources } = this.page;
    if (this.recording.isOver) return call();
    const loading = element.localName === 'source' ? imagesBeside(element) : [element];
    each(loading, (one) => sources.noteSource(one));
    const result = call();
    each(loading, (one) => sources.nameSource(one));
    return result;
  }

  // ---- attributes

  /** Hooks `setAttribute`: sources, `integrity` (dropped, as the copy of a script has another text), and handler attributes. */
  #replaceSetAttribute() {
    const attributes = this;
    const { page, recording } = this;
    replaceMethod(page.window.Element.prototype, 'setAttribute', (native) => function setAttribute(name, value) {
      const key = lowerCase(String(name));
      if (key === 'src' && isMedia(this)) page.media.noteLoading(this);
      if (key === 'integrity' && this.localName === 'script') {
        recording.log.miss(INTEGRITY);
        return undefined;
      }
      const result = attributes.#aroundAttribute(this, key, () => apply(native, this, arguments));
      if (page.onHandlers.isHandler(key) && !recording.isOver && recording.isRunning()) {
        page.elements.declaredNumber(this);
        recording.finishReturned();
        page.onHandlers.registerAttribute(this, sliceOf(key, 2), String(value));
      }
      return result;
    });
  }

  /**
   * A handler attribute can come and go by calls other than `setAttribute`.
   * @param {string} name of the method
   * @param {(first: unknown, second: unknown) => unknown} nameIn the name of the attribute, in the arguments
   */
  #replaceChange(name, nameIn) {
    const { natives: { getAttribute }, onHandlers, recording, window } = this.page;
    replaceMethod(window.Element.prototype, name, (native) => function change(first, second) {
      const given = !recording.isOver && recording.isRunning() ? nameIn(first, second) : '';
      const key = typeof given === 'string' ? lowerCase(given) : '';
      if (!onHandlers.isHandler(key)) return apply(native, this, arguments);
      const before = apply(getAttribute, this, [key]);
      const result = apply(native, this, arguments);
      onHandlers.changeAttribute(this, sliceOf(key, 2), before, apply(getAttribute, this, [key]));
      return result;
    });
  }

  /** @param {unknown} node what the page passes as an attribute node */
  #nameOf(node) {
    try {
      return apply(this.page.natives.nameOfAttribute, /** @type {Attr} */ (node), []);
    } catch { // the call throws too
      return '';
    }
  }

  /** Hooks `setAttributeNS`: `xlink:href` of SVG loads too, and without a namespace it is `setAttribute`. */
  #replaceSetAttributeOfNamespace() {
    const attributes = this;
    replaceMethod(this.page.window.Element.prototype, 'setAttributeNS', (native) => function setAttributeNS(namespace, name) {
      const set = () => apply(native, this, arguments);
      if (typeof name !== 'string') return set();
      if (namespace === XLINK) return hasEnd(name, 'href') && attributes.#isByOldAddress(this) ? attributes.#aroundSource(this, set) : set();
      return namespace === null || namespace === '' ? attributes.#aroundAttribute(this, name, set) : set();
    });
  }

  /**
   * Whether an element is an image of SVG whose `xlink:href` counts.
   * @param {Element} element
   */
  #isByOldAddress(element) {
    return element.localName === 'image' && !this.page.elements.has(element, 'href');
  }

  /**
   * Calls what sets an attribute, as a new source if the element loads what that names.
   * @template T
   * @param {Element} element
   * @param {string} name
   * @param {() => T} call
   * @returns {T}
   */
  #aroundAttribute(element, name, call) {
    const names = SOURCES_OF.get(element.localName);
    return names && hasItem(names, name) ? this.#aroundSource(element, call) : call();
  }
}

/**
 * The images that a `source` of a `picture` is for.
 * @param {Element} source
 */
function imagesBeside(source) {
  /** @type {Element[]} */
  const images = [];
  const { parentElement } = source;
  if (!parentElement || parentElement.localName !== 'picture') return images;
  each(parentElement.children, (child) => { if (child.localName === 'img') images[images.length] = child; });
  return images;
}

export { Attributes };
