// What patterns take of objects: the shape of a pattern is what instrument/insert/shapes.js writes. No getter is called. Destructuring reads properties and
// items.

import { JSON, Map, getOwnPropertyDescriptor, isArray } from '../core/taken.js';
import { isThing } from '../core/things.js';
import { MOST_SPREAD } from './collections.js';

/**
 * Of a pattern of properties `{`, then each name with an inner shape or 0; of a pattern of items `[`, then for each item an inner shape, 0, or null if it
 * is left out. A name or an item `...` is the rest.
 * @typedef {(string|number|null|Shape)[]} Shape
 */

/** One for each recording: `recording.objects.patterns`. */
class Patterns {
  /** @param {import('../types').Objects} objects */
  constructor(objects) {
    this.kinds = objects.kinds;
    this.properties = objects.properties;
    this.collections = objects.collections;
    /** @type {Map<string, Shape>} */
    this.shapes = new Map();
  }

  /**
   * The shape in the text that a mark has, read once. Called by page/helpers/wholes.js.
   * @param {string} text
   */
  shapeOf(text) {
    const known = this.shapes.get(text);
    if (known !== undefined) return known;
    const shape = /** @type {Shape} */ (JSON.parse(text));
    this.shapes.set(text, shape);
    return shape;
  }

  /**
   * Records what a pattern reads of an object. Called by page/helpers/wholes.js.
   * @param {object} object
   * @param {number} site
   * @param {Shape} shape
   */
  takeApart(object, site, shape) {
    if (shape[0] === '[') this.#takeItems(object, site, shape);
    else this.#takeProperties(object, site, shape);
  }

  /**
   * Records what an array's pattern reads: its items, or with a rest the whole array.
   * @param {object} object
   * @param {number} site
   * @param {Shape} shape
   */
  #takeItems(object, site, shape) {
    if (!isArray(object) || shape[shape.length - 1] === '...') {
      this.collections.iterate(object, site);
      return;
    }
    for (let k = 1; k < shape.length; k++) {
      const inner = shape[k];
      if (inner !== null) this.properties.access(object, k - 1, 'r', site);
      if (isArray(inner)) this.#takeInner(object, k - 1, site, inner);
    }
  }

  /**
   * What an object pattern takes: names and inner shapes come in pairs; `...` reads all.
   * @param {object} object
   * @param {number} site
   * @param {Shape} shape
   */
  #takeProperties(object, site, shape) {
    for (let k = 1; k < shape.length; k += 2) {
      const name = /** @type {string} */ (shape[k]);
      const inner = shape[k + 1];
      if (name === '...') this.collections.spread(object, site);
      else this.properties.access(object, name, 'r', site);
      if (isArray(inner)) this.#takeInner(object, name, site, inner);
    }
  }

  /**
   * What an inner pattern takes of a value, if that is an object that the recording looks into.
   * @param {object} object
   * @param {import('../types').VariableName} name
   * @param {number} site
   * @param {Shape} shape
   */
  #takeInner(object, name, site, shape) {
    const found = getOwnPropertyDescriptor(object, name);
    const value = found && found.value;
    if (isThing(value) && !this.kinds.isLeftOut(value)) this.takeApart(value, site, shape);
  }

  /**
   * A loop over an array takes each of its items apart. Called by page/helpers/wholes.js.
   * @param {object} object
   * @param {number} site
   * @param {Shape} shape
   */
  takeEach(object, site, shape) {
    this.collections.iterate(object, site);
    for (let k = 0; isArray(object) && k < object.length && k < MOST_SPREAD; k++) this.#takeInner(object, k, site, shape);
  }
}

export { Patterns };
