// Definitions of custom elements, a thing for each name: `customElements.define` writes it, `customElements.get` reads it, and so does code that uses a member which
// the class gives to an element of the parser. Before the definition, such code finds no member. Web components, `is not a function`.

import { replaceMethod } from '../core/replacing.js';
import { WeakMap, apply, getOwnPropertyDescriptor, getPrototypeOf } from '../core/taken.js';
import { spellName } from '../log/spelling.js';

/** One for each document: `page.definitions`. */
class Definitions {
  /** @param {import('../types').Page} page */
  constructor(page) {
    this.page = page;
    this.recording = page.recording;
    this.get = page.window.CustomElementRegistry.prototype.get;
    this.ofBrowser = page.window.HTMLElement.prototype;
    /**
     * By the prototype of a class: the name of its elements.
     * @type {WeakMap<object, string>}
     */
    this.names = new WeakMap();
    /** How many reactions of elements run: these use members of their own class, which is there. */
    this.reactions = 0;
  }

  /** Hooks `customElements.get`. */
  start() {
    const definitions = this;
    const { CustomElementRegistry, customElements } = this.page.window;
    replaceMethod(CustomElementRegistry.prototype, 'get', (native) => function get(name) {
      if (this === customElements && typeof name === 'string' && !definitions.recording.isOver) definitions.#access('r', name);
      return apply(native, this, arguments);
    });
  }

  /**
   * An element is about to be defined. Called by page/document/reactions.js.
   * @param {string} name
   * @param {unknown} constructor whatever the page passes
   */
  noteDefinition(name, constructor) {
    if (this.recording.isOver || this.#definedAs(name) !== undefined) return;
    this.#access('w', name);
    const prototype = typeof constructor === 'function' ? getOwnPropertyDescriptor(constructor, 'prototype')?.value : null;
    if (typeof prototype === 'object' && prototype) this.names.set(prototype, name);
  }

  /**
   * Runs a reaction of an element. Called by page/document/reactions.js.
   * @template T
   * @param {() => T} call
   */
  inside(call) {
    this.reactions++;
    try {
      return call();
    } finally {
      this.reactions--;
    }
  }

  /**
   * Code uses a member of an element that has none of this name itself. It needs the definition if the class has the member, or if nothing has it yet. What code
   * makes has its class from the start, or gets it from a later call of this code. Called by page/objects/members.js.
   * @param {Element} element
   * @param {string} member
   * @param {import('../types').Modes} modes
   * @param {number} site
   */
  noteMember(element, member, modes, site) {
    if (this.reactions || !this.page.tree.steps.has(element)) return;
    const name = this.names.get(/** @type {object} */ (getPrototypeOf(element)));
    if (name !== undefined) {
      if (member in element && !(member in this.ofBrowser)) this.#access('r', name, site);
      return;
    }
    const own = apply(this.page.natives.localName, element, []);
    if (modes === 'r' && !(member in element) && this.#definedAs(own) === undefined) this.#access('r', own, site);
  }

  /**
   * @param {'r'|'w'} mode
   * @param {string} name of an element
   * @param {number} [site] of the code, if it is known
   */
  #access(mode, name, site) {
    if (!this.recording.isRunning()) return;
    this.recording.access(mode, `var ${this.page.number} ${spellName(`customElements.${name}`)}`, site, () => this.#definedAs(name));
  }

  /** @param {string} name */
  #definedAs(name) {
    return apply(this.get, this.page.window.customElements, [name]);
  }
}

export { Definitions };
