// Elements that code makes by `createElement`. What the action that made one does with it is in no race, as with other objects (docs/lost.md): others get
// the element from this action. But others may also look for it in the tree, and come too early: if another action has found it there, all counts. Created
// elements that are not in the document yet.

import { String, WeakMap, apply, getOwnPropertyDescriptor, hasOwn } from '../core/taken.js';

/** Of what a lookup finds, so many elements are looked at. */
const MOST_FOUND = 500;
/**
 * Properties by which code goes from one node to another, and the interfaces that have them; those that show the content are reads of it (trees.js).
 * @type {{[name: string]: string|null|undefined}}
 */
const STEPS = {
  parentNode: 'Node', parentElement: 'Node', nextSibling: 'Node', previousSibling: 'Node', nextElementSibling: 'Element', previousElementSibling: 'Element',
  activeElement: 'Document', __proto__: null,
};
/** @type {{[owner: string]: number|undefined}} `nodeType`, or 0 for all nodes */
const TYPES = { Node: 0, Element: 1, Document: 9 };

/** One for each recording: `recording.objects.madeElements`. */
class MadeElements {
  /** @param {import('../types').Objects} objects */
  constructor(objects) {
    this.recording = objects.recording;
    this.kinds = objects.kinds;
    this.variables = objects.variables;
    /**
     * By element: the action that made it, as long as no other one has found it.
     * @type {WeakMap<object, number>}
     */
    this.makers = new WeakMap();
    this.hasAny = false;
    /**
     * By property: its getter.
     * @type {{[name: string]: import('../types').Method|null|undefined}}
     */
    this.getters = { __proto__: null };
  }

  /**
   * The getters of one window work for the nodes of all. Called by trees.js.
   * @param {import('../types').PageWindow} window
   */
  takeGetters(window) {
    for (const name in STEPS) this.getters[name] = getOwnPropertyDescriptor(window[String(STEPS[name])].prototype, name)?.get;
  }

  /**
   * The running action has made an element. Called by page/events/calls.js.
   * @param {Element} element
   */
  note(element) {
    const maker = this.recording.makingAction();
    if (!maker) return;
    this.makers.set(element, maker);
    this.hasAny = true;
  }

  /**
   * The action that made a node, or 0. Called by kinds.js.
   * @param {object} node
   */
  makerOf(node) {
    return this.makers.get(node) || 0;
  }

  /**
   * The running action has found a node.
   * @param {Node|null} node
   */
  noteFound(node) {
    const maker = node === null ? undefined : this.makers.get(node);
    if (node === null || maker === undefined || maker === this.recording.actions) return;
    this.makers.delete(node);
    const holder = this.kinds.holders.get(node);
    if (holder !== undefined) this.variables.waiting.release(holder);
  }

  /**
   * The running action has looked something up: it has one node, or a list of nodes. Called by page/accesses/lookups.js.
   * @param {unknown} found
   */
  noteResult(found) {
    if (!this.hasAny || typeof found !== 'object' || found === null) return;
    this.noteFound(/** @type {Node} */ (found));
    const list = /** @type {ArrayLike<Node>} */ (found);
    for (let k = 0; k < MOST_FOUND && hasOwn(list, k); k++) this.noteFound(list[k]);
  }

  /**
   * Code reads a property of a node, by which it may go to another one. Called by trees.js.
   * @param {Node} node
   * @param {import('../types').VariableName} name
   */
  noteStep(node, name) {
    const owner = this.hasAny ? STEPS[name] : null;
    const get = owner ? this.getters[name] : null;
    if (owner && get && (!TYPES[owner] || node.nodeType === TYPES[owner])) this.noteFound(apply(get, node, []));
  }
}

export { MadeElements };
