// Elements made by a script that load something before it inserts them: they are declared where they are made.

import { each } from '../core/lists.js';
import { replaceConstructor, replaceMethod, replaceProperty } from '../core/replacing.js';
import { apply } from '../core/taken.js';
import { isElement } from '../core/things.js';

/** These load when code makes them with an address; other elements load when they are inserted. */
const LOADS_AT_ONCE = 'img, image, audio, video';
/** `nodeType` of a fragment. */
const FRAGMENT = 11;

/** One for each document: `page.made`. */
class Made {
  /** @param {import('../types').Page} page */
  constructor(page) {
    this.page = page;
    this.recording = page.recording;
  }

  /** Hooks what makes elements without their being in the page. One call per document, before its code runs. */
  start() {
    const { window } = this.page;
    each(['Image', 'Audio'], (name) => replaceConstructor(window, name, (made) => this.#note(made)));
    this.#replaceMaker(window.Node.prototype, 'cloneNode');
    this.#replaceMaker(window.Document.prototype, 'importNode');
    each(['cloneContents', 'createContextualFragment'], (name) => this.#replaceMaker(window.Range.prototype, name));
    this.#replaceText(window.Element.prototype);
  }

  /**
   * Hooks a call that makes elements of a text or copies them: those that load are declared at once.
   * @param {any} owner its members differ by interface
   * @param {string} name
   */
  #replaceMaker(owner, name) {
    const made = this;
    replaceMethod(owner, name, (native) => function make() {
      const node = apply(native, this, arguments);
      const { insertions, natives } = made.page;
      if (name === 'createContextualFragment') each(apply(natives.querySelectorAllOfFragment, node, ['script']), (script) => insertions.noteMade(script));
      made.#noteTree(node);
      return node;
    });
  }

  /**
   * A text makes elements inside of one that is in no document.
   * @param {any} owner its members differ by interface
   */
  #replaceText(owner) {
    const made = this;
    replaceProperty(owner, 'innerHTML', (native) => ({
      set(value) {
        apply(native.set, this, [value]);
        made.#noteInside(this);
      },
    }));
    each(['insertAdjacentHTML', 'setHTMLUnsafe', 'setHTML'], (name) => replaceMethod(owner, name, (native) => function fill() {
      apply(native, this, arguments);
      made.#noteInside(apply(made.page.natives.parentNode, this, []) || this);
    }));
  }

  /** @param {Element} element */
  #noteInside(element) {
    if (!apply(this.page.natives.isConnected, element, [])) this.#noteTree(element);
  }

  /**
   * What a template has, or a document that no window shows, loads nothing.
   * @param {Node} root an element or a fragment
   */
  #noteTree(root) {
    const { natives, document } = this.page;
    if (this.recording.isOver || !this.recording.isRunning() || root.ownerDocument !== document) return;
    const isTree = isElement(root);
    if (isTree && apply(natives.matches, root, [LOADS_AT_ONCE])) this.#note(root);
    if (!root.firstChild || (!isTree && root.nodeType !== FRAGMENT)) return;
    each(apply(isTree ? natives.querySelectorAll : natives.querySelectorAllOfFragment, root, [LOADS_AT_ONCE]), (element) => this.#note(element));
  }

  /**
   * Its handler attributes can run before a script inserts it.
   * @param {Element} element
   */
  #note(element) {
    const { recording, page } = this;
    if (recording.isOver || !recording.isRunning() || element.ownerDocument !== page.document) return;
    if (recording.declared.has(page.elements.number(element))) return;
    page.elements.declaredNumber(element);
    page.onHandlers.readAttributes(element);
  }
}

export { Made };
