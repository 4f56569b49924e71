// Which fields change with others: those that a form resets, the radio buttons that another one clears, the list that an option is of.

import { each, keep } from '../core/lists.js';
import { getterOf } from '../core/natives.js';
import { fits } from '../core/strings.js';
import { apply } from '../core/taken.js';

/** `nodeType` of a document. */
const DOCUMENT = 9;
const RADIO = /^radio$/i;
const RADIOS = 'input[type="radio" i]';
/** Types whose value is their attribute: a form does not reset them. */
const WITHOUT_VALUE = /^(hidden|submit|button|reset|image)$/i;

/** A part of `Fields`. */
class Forms {
  /** @param {import('../types').Page} page */
  constructor(page) {
    this.page = page;
    const { HTMLFormElement, HTMLInputElement, HTMLSelectElement, HTMLTextAreaElement } = page.window;
    /**
     * By the element's name.
     * @type {{[name: string]: {[variable: string]: (this: any) => unknown}}} `this` is an element of that name
     */
    this.getters = {
      input: { value: getterOf(HTMLInputElement.prototype, 'value'), checked: getterOf(HTMLInputElement.prototype, 'checked') },
      select: { value: getterOf(HTMLSelectElement.prototype, 'value') },
      textarea: { value: getterOf(HTMLTextAreaElement.prototype, 'value') },
    };
    this.elements = getterOf(HTMLFormElement.prototype, 'elements');
    this.form = getterOf(HTMLInputElement.prototype, 'form');
  }

  /**
   * The fields of a form that have a value to reset, and the variable that it is. Called by fields.js.
   * @param {any} form of a document of its own classes
   */
  fieldsOf(form) {
    /** @type {[Element, 'value'|'checked'][]} */
    const fields = [];
    each(apply(this.elements, form, []), (field) => {
      const type = field.localName === 'input' ? this.page.elements.attribute(field, 'type') || '' : '';
      if (!fits(/^(input|select|textarea)$/, field.localName) || fits(WITHOUT_VALUE, type)) return;
      fields[fields.length] = [field, fits(/^(radio|checkbox)$/i, type) ? 'checked' : 'value'];
    });
    return fields;
  }

  /**
   * What a field has now. Called by fields.js.
   * @param {Element} field
   * @param {string} variable
   */
  contentOf(field, variable) {
    return apply(this.getters[field.localName][variable], field, []);
  }

  /**
   * The other radio buttons of the group of one; nothing of another element. Called by fields.js.
   * @param {any} radio any element
   * @returns {Element[]}
   */
  radiosBeside(radio) {
    const { elements, natives } = this.page;
    const isRadio = (/** @type {any} */ one) => one.localName === 'input' && fits(RADIO, elements.attribute(one, 'type') || '');
    const name = isRadio(radio) && elements.attribute(radio, 'name');
    if (!name || !apply(natives.isConnected, radio, [])) return [];
    const form = apply(this.form, radio, []);
    const all = form ? apply(this.elements, form, []) : this.#radiosAround(radio);
    return keep(all, (one) => one !== radio && isRadio(one) && elements.attribute(one, 'name') === name && apply(this.form, one, []) === form);
  }

  /**
   * The radio buttons of the tree in which an element is: setting one can clear the others of its name.
   * @param {Element} element
   * @returns {ArrayLike<any>} elements
   */
  #radiosAround(element) {
    const { natives } = this.page;
    const root = apply(natives.getRootNode, element, []);
    const isDocument = apply(natives.nodeType, root, []) === DOCUMENT;
    return isDocument ? apply(natives.querySelectorAll, root.documentElement, [RADIOS]) : apply(natives.querySelectorAllOfFragment, root, [RADIOS]);
  }

  /**
   * The `select` that an option is in. Called by fields.js.
   * @param {Element} option
   * @returns {Element|null}
   */
  listOf(option) {
    let at = option.parentElement;
    while (at && at.localName !== 'select') at = at.parentElement;
    return at;
  }
}

export { Forms };
