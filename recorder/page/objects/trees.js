// The page's tree as variables of its elements: one for each attribute (also of style and class), and one for what is in an element (`content`). The
// observer of tree.js sees their changes; shown.js knows which properties and methods read them, as `innerHTML`.

import { each, findItem } from '../core/lists.js';
import { lowerCase, sliceOf } from '../core/strings.js';
import { Object, apply, getOwnPropertyDescriptor, getPrototypeOf, hasOwn } from '../core/taken.js';
import { UNKNOWN } from '../log/values.js';
import { DeepReads } from './deep-reads.js';
import { CLASSES, DATA, Holder, IS_OF_TREE, READ } from './holders.js';
import { isAccessor } from './kinds.js';
import { noteMember } from './members.js';
import {
  CONTENT, DEEP, PARTS, REPLACES, CHANGES_CONTENT, READS_CONTENT, READS_ATTRIBUTE, READS_ATTRIBUTES, READS_CLASSES, READS_STYLE, isOther, shownBy,
} from './shown.js';
import { NO_STYLES, OF_STYLE, nameOfData, nameOfStyle, propertyOfStyle } from './style-names.js';

/** One for each recording: `recording.objects.trees`. */
class Trees {
  /** @param {import('../types').Objects} objects */
  constructor(objects) {
    this.recording = objects.recording;
    this.kinds = objects.kinds;
    this.variables = objects.variables;
    this.callers = objects.callers;
    this.madeElements = objects.madeElements;
    this.deepReads = new DeepReads(objects, (node, name, site) => { if (!isOther(name)) this.#touch(this.kinds.hold(node, -1), name, 'r', site); });
    this.prototypes = objects.prototypes;
    /**
     * The first page; it numbers the nodes of all.
     * @type {import('../types').Page|null}
     */
    this.page = null;
    /** @type {{owner: Function, part: string, get: () => object}[]} */
    this.getters = [];
  }

  /**
   * The elements of each frame have getters of their own. Called by objects.js.
   * @param {import('../types').Page} page
   */
  addWindow(page) {
    const { window } = page;
    if (!this.page) {
      this.page = page;
      this.madeElements.takeGetters(window);
    }
    each(['HTMLElement', 'SVGElement', 'Element'], (name) => each(Object.keys(PARTS), (part) => {
      const found = getOwnPropertyDescriptor(window[name].prototype, part);
      if (found && found.get) this.getters[this.getters.length] = { owner: window[name], part, get: found.get };
    }));
  }

  /**
   * Whether it is a node: a prototype of an element is none itself. Called by kinds.js.
   * @param {object} object
   * @returns {boolean}
   */
  isNode(object) {
    try {
      return apply(this.recording.natives.nodeType, object, []) > 0;
    } catch { // its getter fails of what is no node
      return false;
    }
  }

  /**
   * The number of a node, which a reader of the trace can know by its tag and id. Called by object-names.js.
   * @param {Node} node
   */
  number(node) {
    const { elements } = /** @type {import('../types').Page} */ (this.page);
    const number = elements.number(node);
    if (!this.recording.declared.has(number)) this.recording.log.name('element', number, elements.facts(node));
    return number;
  }

  // ---- what marked code touches

  /**
   * Records an access to a property of a node: what it shows of the tree, or one that scripts put there. Called by properties.js.
   * @param {any} node of the page
   * @param {import('../types').VariableName} name
   * @param {import('../types').Modes} modes
   * @param {number} site
   */
  access(node, name, modes, site) {
    if (this.notePart(node, name, site)) return;
    this.madeElements.noteStep(node, name);
    noteMember(this.recording, node, name, modes, site);
    const shown = typeof name === 'string' && node.nodeType === 1 ? shownBy(node, name) : null;
    if (shown !== null) this.#touchShown(node, /** @type {string} */ (name), shown, modes, site);
    else if (modes === 'r') this.#readOwn(node, name, site);
    else if (hasOwn(node, name) ? !isAccessor(node, name) : !(name in node)) this.variables.touchModes(this.kinds.hold(node, site), `${name}`, modes, site);
  }

  /**
   * A property or a method that shows a variable of an element, and perhaps what is inside of it.
   * @param {Element} node
   * @param {string} property
   * @param {string} shown
   * @param {import('../types').Modes} modes
   * @param {number} site
   */
  #touchShown(node, property, shown, modes, site) {
    const holder = this.kinds.hold(node, site);
    if (!isOther(shown) && !(modes !== 'r' && REPLACES.has(property))) this.#touch(holder, shown, modes, site);
    const depth = DEEP[property];
    if (depth && modes !== 'w') this.deepReads.read(node, depth, this.callers.placeOf(site));
  }

  /**
   * Whatever is of the page's tree is the page's, whoever touches it.
   * @param {import('../types').Holder} holder
   * @param {string} name
   * @param {import('../types').Modes} modes
   * @param {number} site
   */
  #touch(holder, name, modes, site) {
    const { actions } = this.recording;
    const { lastRead, lastWrite } = variableOfTree(holder, name);
    const isKnown = holder.maker === actions || lastWrite === actions || (modes === 'r' && lastRead === actions);
    this.variables.touchModes(holder, name, modes, isKnown ? site : this.callers.placeOf(site));
  }

  /**
   * A property that scripts put at a node, or look for there.
   * @param {Node} node
   * @param {import('../types').VariableName} name
   * @param {number} site
   */
  #readOwn(node, name, site) {
    if (hasOwn(node, name)) {
      if (!isAccessor(node, name)) this.variables.touchName(this.kinds.hold(node, site), `${name}`, READ, site);
      return;
    }
    const known = this.kinds.holders.get(node);
    const gone = known === undefined ? null : known.find(`${name}`);
    const isMissing = !(name in node);
    if (known !== undefined && gone !== null) this.variables.touch(known, gone, READ, site);
    else if (isMissing) this.variables.touchName(this.kinds.hold(node, site), `${name}`, READ, site);
    if (isMissing || this.prototypes.names.has(name)) this.prototypes.read(getPrototypeOf(node), name, site);
  }

  /**
   * The style, the classes and the data of an element are objects: their properties are variables of the element.
   * @param {object} node
   * @param {import('../types').VariableName} name
   * @param {number} site
   */
  notePart(node, name, site) {
    const kind = PARTS[name];
    const part = kind ? this.#partOf(node, name) : null;
    if (!kind || part === null) return false;
    if (!this.kinds.holders.has(part)) this.kinds.holders.set(part, new Holder(kind, site, node));
    return true;
  }

  /**
   * The style, the classes or the data of an element, as the browser has them; null if it has none.
   * @param {object} node
   * @param {import('../types').VariableName} name
   * @returns {object|null}
   */
  #partOf(node, name) {
    const found = findItem(this.getters, (one) => one.part === name && node instanceof one.owner);
    return found ? apply(found.get, node, []) : null;
  }

  /**
   * A style, the classes or the data of an element. Of `classList` only what reads it: `noteChange` has the changes. Called by collections.js and properties.js.
   * @param {import('../types').Holder} owner
   * @param {object} part
   * @param {import('../types').VariableName} name
   * @param {import('../types').Modes} modes
   * @param {number} site
   */
  accessPart({ kind, object: node }, part, name, modes, site) {
    if (typeof name !== 'string') return;
    const owner = this.kinds.hold(node, site);
    if (kind === CLASSES) {
      if (READS_CLASSES.has(name)) this.#touch(owner, 'class', 'r', site);
    } else if (kind === DATA) this.#touch(owner, nameOfData(name), modes, site);
    else if (name === 'cssText') this.#touch(owner, 'style', modes, site);
    else if (name in part && !NO_STYLES[name]) this.#touch(owner, `style.${name}`, modes, site);
  }

  /**
   * Records what a method of an element touches. Called by collections.js.
   * @param {import('../types').Holder} holder
   * @param {string} name
   * @param {number} site
   */
  call(holder, name, site) {
    if (holder.object.nodeType !== 1) return;
    if (CHANGES_CONTENT.has(name)) this.#touch(holder, CONTENT, 'w', site);
    else if (READS_ATTRIBUTES.has(name)) this.deepReads.readAttributes(holder.object, site);
    else if (READS_CONTENT.has(name)) this.#touchShown(holder.object, name, CONTENT, 'r', site);
  }

  /**
   * Records what `getAttribute(key)`, `cloneNode(key)` and the like touch. Called by collections.js.
   * @param {import('../types').Holder} holder
   * @param {unknown} key
   * @param {string} method
   * @param {number} site
   */
  accessAttribute(holder, key, method, site) {
    if (holder.object.nodeType !== 1) return;
    if (method === 'cloneNode') {
      if (key) this.#touchShown(holder.object, method, CONTENT, 'r', site);
    } else if (typeof key === 'string' && !isOther(key)) this.#touch(holder, lowerCase(key), READS_ATTRIBUTE.has(method) ? 'r' : 'w', site);
  }

  /**
   * Records what `getPropertyValue(key)`, `setProperty(key, ..)` and the like touch of a style. Called by collections.js.
   * @param {import('../types').Holder} holder
   * @param {unknown} key
   * @param {string} method
   * @param {number} site
   */
  accessStyle({ object: node }, key, method, site) {
    if (typeof key === 'string') this.#touch(this.kinds.hold(node, site), `${OF_STYLE}${propertyOfStyle(key)}`, READS_STYLE.has(method) ? 'r' : 'w', site);
  }

  /**
   * The value of a variable of an element, without a call of the page's code. Called by variables.js.
   * @param {Element} node
   * @param {import('../types').VariableName} name
   * @returns {unknown}
   */
  valueOf(node, name) {
    if (typeof name !== 'string' || name === CONTENT || node.nodeType !== 1) return UNKNOWN;
    if (sliceOf(name, 0, OF_STYLE.length) === OF_STYLE) return this.#styleOf(node, sliceOf(name, OF_STYLE.length));
    const found = getOwnPropertyDescriptor(node, name);
    if (found) return found.value;
    return this.page ? apply(this.page.natives.getAttribute, node, [name]) : undefined;
  }

  /**
   * The text of a property of an element's own style; '' if it is not set.
   * @param {Element} node
   * @param {string} property as code names it: `paddingTop`, `padding-top`
   * @returns {unknown}
   */
  #styleOf(node, property) {
    const style = this.#partOf(node, 'style');
    return style !== null && this.page ? apply(this.page.natives.getPropertyValue, /** @type {CSSStyleDeclaration} */ (style), [nameOfStyle(property)]) : UNKNOWN;
  }

  // ---- changes

  /**
   * Records a change that the observer has seen. Called by page/document/tree.js.
   * @param {MutationRecord} change
   */
  noteChange({ target, type, attributeName, oldValue }) {
    if (type === 'characterData' && this.recording.ownTexts.delete(target)) return; // what the recorder did (page/scripts/scripts.js)
    if (type === 'childList') this.#write(target, CONTENT, UNKNOWN);
    else if (type === 'characterData') this.#write(target.parentNode, CONTENT, UNKNOWN);
    else if (attributeName !== null && !isOther(attributeName)) this.#write(target, attributeName, oldValue);
  }

  /**
   * A mark might have written it already, with its place.
   * @param {Node|null} node
   * @param {string|null} name
   * @param {unknown} before
   */
  #write(node, name, before) {
    if (!node || name === null || node.nodeType !== 1 || !this.recording.hasBegun) return;
    const holder = this.kinds.hold(node, -1);
    this.variables.stage(holder, variableOfTree(holder, name), -1, before);
  }
}

/**
 * A variable that is an attribute, the content or a style of an element, and no property of scripts.
 * @param {import('../types').Holder} holder
 * @param {string} name
 */
function variableOfTree(holder, name) {
  const variable = holder.variable(name);
  variable.flags |= IS_OF_TREE;
  return variable;
}

export { Trees };
