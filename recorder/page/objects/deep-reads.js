// Reads of all that is in an element: `textContent`, `innerHTML`, `outerHTML`, `cloneNode(true)` read the contents of the elements inside of it, and its copies and
// its markup also read attributes.

import { apply, hasOwn } from '../core/taken.js';
import { CONTENT, MARKUP, OUTER } from './shown.js';

/** So many elements inside of an element are read, in the order of the tree, and so many attributes of each. */
const MOST_INSIDE = 64;
const MOST_ATTRIBUTES = 32;

/** Made by trees.js. */
class DeepReads {
  /**
   * @param {import('../types').Objects} objects
   * @param {(node: Element, name: string, site: number) => void} touch reads a variable of an element
   */
  constructor(objects, touch) {
    this.recording = objects.recording;
    this.touch = touch;
  }

  /**
   * Reads what is in an element. Called by trees.js.
   * @param {Element} node
   * @param {number} depth what is read
   * @param {number} site
   */
  read(node, depth, site) {
    const { getElementsByTagName } = this.recording.natives;
    if (depth === OUTER) this.readAttributes(node, site);
    const inside = apply(getElementsByTagName, node, ['*']);
    for (let k = 0; k < MOST_INSIDE && hasOwn(inside, k); k++) {
      this.touch(inside[k], CONTENT, site);
      if (depth >= MARKUP) this.readAttributes(inside[k], site);
    }
  }

  /**
   * Reads the attributes that an element has. Called by trees.js.
   * @param {Element} node
   * @param {number} site
   */
  readAttributes(node, site) {
    const names = apply(this.recording.natives.getAttributeNames, node, []);
    for (let k = 0; k < names.length && k < MOST_ATTRIBUTES; k++) this.touch(node, names[k], site);
  }
}

export { DeepReads };
