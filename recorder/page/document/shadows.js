// Shadow trees (shadow roots) that the parser makes, as of `<template shadowrootmode>`: their elements are parse steps like others, and their scripts run. No lookup
// by an id in the document finds what is in one.

import { each, findItem, hasItem } from '../core/lists.js';
import { withoutFragment } from '../core/strings.js';
import { apply } from '../core/taken.js';

/** One for each document: `page.shadows`. */
class Shadows {
  /** @param {import('../types').Page} page */
  constructor(page) {
    this.page = page;
    this.recording = page.recording;
    this.natives = page.natives;
    /** @type {ShadowRoot[]} */
    this.roots = [];
  }

  /**
   * Whether a node is in one of them. Called by tree.js.
   * @param {Node} node
   */
  has(node) {
    return this.roots.length > 0 && hasItem(this.roots, apply(this.natives.getRootNode, node, []));
  }

  /**
   * An element that the parser made might have a shadow tree by now; a closed one is not found. Called by tree.js.
   * @param {Element} element
   */
  look(element) {
    const root = apply(this.natives.shadowRoot, element, []);
    if (!root || hasItem(this.roots, root)) return;
    this.roots[this.roots.length] = root;
    this.page.tree.watch(root);
    each(apply(this.natives.querySelectorAllOfFragment, root, ['*']), (inside) => this.page.tree.add(inside, 'parser'));
  }

  /** The template is in an element that the parser has not closed. */
  #lookAround() {
    for (let at = this.page.tree.lastParsedElement; at; at = at.parentElement || /** @type {ShadowRoot} */ (apply(this.natives.getRootNode, at, [])).host) this.look(at);
  }

  /**
   * A script in a shadow tree begins to run: the browser does not say which one. `address` is that of its file, or of the page where it is in
   * it: then it is the last element that the parser made, or one in a closed tree. Called by page/scripts/scripts.js.
   * @param {string} address
   * @returns {Element|null|undefined} undefined where no such script is known
   */
  findScript(address) {
    const { document, elements, scripts, tree } = this.page;
    if (!tree.isParsing()) return undefined;
    this.#lookAround();
    const last = tree.lastParsedElement;
    if (address === withoutFragment(document.URL)) return last && this.has(last) && elements.kinds.get(tree.lastParsed) === 'inline' ? last : null;
    const isIt = (/** @type {Element} */ script) => /** @type {HTMLScriptElement} */ (script).src === address && !scripts.hasRun.has(elements.number(script));
    for (let k = 0; k < this.roots.length; k++) {
      const found = findItem(apply(this.natives.querySelectorAllOfFragment, this.roots[k], ['script[src]']), isIt);
      if (found) return found;
    }
    return undefined;
  }
}

export { Shadows };
