// Whether an element is inert, for reach.js: nobody finds it, with keys either. It or an element around it has the attribute, or a modal dialog is open
// that it is not in.

import { findItem } from '../core/lists.js';
import { apply } from '../core/taken.js';

/** An inert element and all in it cannot be reached, nor what is outside of an open modal dialog. */
const IS_INERT = ':is([inert], [inert] *)';
const MODAL = 'dialog:modal';

/** A part of `Reach`. */
class Inert {
  /** @param {import('../types').Page} page */
  constructor(page) {
    this.page = page;
    this.natives = page.natives;
    /** @type {{isAny: boolean, modals: ArrayLike<Element>}|null} */
    this.found = null;
  }

  /** A look begins. Called by reach.js. */
  begin() {
    this.found = null;
  }

  /** Asked once a look. */
  #find() {
    const { natives, page } = this;
    const root = page.document.documentElement;
    if (!root) return { isAny: false, modals: [] };
    const isAny = apply(natives.hasAttribute, root, ['inert']) || apply(natives.querySelectorAll, root, ['[inert]']).length > 0;
    return { isAny, modals: apply(natives.querySelectorAll, root, [MODAL]) };
  }

  /**
   * Whether an element is inert, by what `find` found in this look. Called by reach.js.
   * @param {Element} element
   */
  has(element) {
    this.found = this.found || this.#find();
    const { isAny, modals } = this.found;
    if (isAny && apply(this.natives.matches, element, [IS_INERT])) return true;
    return modals.length > 0 && !findItem(modals, (modal) => apply(this.natives.contains, modal, [element]));
  }
}

export { Inert };
