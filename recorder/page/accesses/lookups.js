// Lookups of elements by their ids. `getElementById`, `querySelector`, `matches` and `closest` with a `#id`: each is a read, also if it finds nothing.

import { each } from '../core/lists.js';
import { replaceMethod } from '../core/replacing.js';
import { found, indexIn, sliceOf } from '../core/strings.js';
import { String, apply } from '../core/taken.js';
import { spellName } from '../log/spelling.js';

/** @type {[string, string[]][]} */
const LOOKUPS = [
  ['Document', ['getElementById', 'querySelector', 'querySelectorAll']],
  ['DocumentFragment', ['getElementById', 'querySelector', 'querySelectorAll']],
  ['Element', ['querySelector', 'querySelectorAll', 'matches', 'closest']],
];
/**
 * Those that take no id.
 * @type {[string, string[]][]}
 */
const OTHERS = [
  ['Document', ['getElementsByClassName', 'getElementsByTagName', 'getElementsByName', 'elementFromPoint', 'elementsFromPoint']],
  ['Element', ['getElementsByClassName', 'getElementsByTagName']],
];

/** An attribute, whose value may be like an id, or an id. */
const PART = /\[[^\]]*\]|#((?:[\w-]|[^\x00-\x7f]|\\.)+)/;
const ESCAPE = /\\(.)/;

/**
 * A name of a selector without its backslashes, as an id has it.
 * @param {string} name
 */
function withoutEscapes(name) {
  let text = '';
  let rest = name;
  for (let escape = found(ESCAPE, rest); escape !== null; escape = found(ESCAPE, rest)) {
    text += sliceOf(rest, 0, escape.index) + escape[1];
    rest = sliceOf(rest, escape.index + 2);
  }
  return text + rest;
}

/**
 * The ids in a selector.
 * @param {string} selector
 */
function idsOfSelector(selector) {
  /** @type {string[]} */
  const ids = [];
  let rest = selector;
  for (let part = found(PART, rest); part !== null; part = found(PART, rest)) {
    if (part[1] !== undefined) ids[ids.length] = withoutEscapes(part[1]);
    rest = sliceOf(rest, part.index + part[0].length);
  }
  return ids;
}

/** One for each document: `page.lookups`. */
class Lookups {
  /** @param {import('../types').Page} page */
  constructor(page) {
    this.page = page;
    this.recording = page.recording;
  }

  /** Hooks the calls that look for elements: each lookup of an id is a read, and what was found is noted. */
  start() {
    const lookups = this;
    each(LOOKUPS, ({ 0: owner, 1: names }) => each(names, (name) => {
      replaceMethod(this.page.window[owner].prototype, name, (native) => function lookUp(key) {
        if (!lookups.recording.isOver) lookups.#read(this, name, key);
        return lookups.#noteFound(apply(native, this, arguments));
      });
    }));
    if (this.recording.objects) this.#watchOthers();
  }

  /** Hooks lookups that find elements by something else than an id (tags, classes): they read the elements that they find. */
  #watchOthers() {
    const lookups = this;
    each(OTHERS, ({ 0: owner, 1: names }) => each(names, (name) => {
      replaceMethod(this.page.window[owner].prototype, name, (native) => function lookUp() {
        return lookups.#noteFound(apply(native, this, arguments));
      });
    }));
  }

  /**
   * What a lookup has found might have been missing, if code made it.
   * @param {unknown} result
   */
  #noteFound(result) {
    this.recording.objects?.madeElements.noteResult(result);
    return result;
  }

  /**
   * Records a lookup by ids, whose elements another action might add or remove.
   * @param {Node} root
   * @param {string} name of the method
   * @param {unknown} key
   */
  #read(root, name, key) {
    const ids = name === 'getElementById' ? [String(key)] : this.#idsOf(key);
    if (!ids.length || !this.#isInDocument(root)) return;
    each(ids, (id) => {
      if (id) this.recording.access('r', `elem ${this.page.number} ${spellName(id)}`, undefined, () => this.page.elements.find(id));
    });
  }

  /** @param {unknown} selector */
  #idsOf(selector) {
    return typeof selector === 'string' && indexIn(selector, '#') >= 0 ? idsOfSelector(selector) : [];
  }

  /**
   * Separate trees and shadow trees have ids of their own.
   * @param {Node} root
   */
  #isInDocument(root) {
    const { document, natives } = this.page;
    if (root === document) return true;
    return root.ownerDocument === document && apply(natives.isConnected, root, []) && apply(natives.getRootNode, root, []) === document;
  }
}

export { Lookups };
