// The values of form fields, cookies and storage: variables of objects of their own. `input.value`, `checked`, `select.selectedIndex`, `document.cookie`,
// `localStorage.setItem` and `getItem`, `sessionStorage`. Of storage not seen: `length`, `key(n)`, `clear()`, and with `--depth globals` accesses without a method.

import { each, findItem } from '../core/lists.js';
import { replaceGetter, replaceMethod, replaceProperty } from '../core/replacing.js';
import { settings } from '../core/settings.js';
import { sliceOf } from '../core/strings.js';
import { Object, String, apply } from '../core/taken.js';
import { isElement } from '../core/things.js';
import { spellName } from '../log/spelling.js';
import { Forms } from './forms.js';

/** The number of a field's object is this and the number of its element. */
const { FIRST_FIELD } = settings.numbers;
const FIELD_PROPERTIES = [
  ['HTMLInputElement', 'value', 'value'], ['HTMLInputElement', 'checked', 'checked'],
  ['HTMLInputElement', 'valueAsNumber', 'value'], ['HTMLInputElement', 'valueAsDate', 'value'],
  ['HTMLTextAreaElement', 'value', 'value'],
  ['HTMLSelectElement', 'value', 'value'], ['HTMLSelectElement', 'selectedIndex', 'value'],
];
/** @type {{[name: string]: string}} */
const STORAGE_CALLS = { getItem: 'r', setItem: 'w', removeItem: 'w' };
const LONGEST_KEY = 80;
/** Fields in which a key changes the text whatever handlers do, unless they keep it from doing so. */
const CHANGEABLE = ':is(input, textarea):read-write:not([maxlength])';

/** One for each document: `page.fields`. */
class Fields {
  /** @param {import('../types').Page} page */
  constructor(page) {
    this.page = page;
    this.recording = page.recording;
    this.getItem = page.window.Storage.prototype.getItem;
    this.forms = new Forms(page);
  }

  /** Hooks form fields, cookies and storage. One call per document, before its code runs. */
  start() {
    each(FIELD_PROPERTIES, ({ 0: owner, 1: name, 2: variable }) => this.#replaceField(this.page.window[owner].prototype, name, variable));
    this.#replaceOptions();
    this.#replaceCookie();
    each(Object.keys(STORAGE_CALLS), (name) => this.#replaceStorage(name));
  }

  /**
   * The location of a variable of a field, as the trace has it.
   * @param {Element} field
   * @param {string} variable
   */
  #location(field, variable) {
    return `var ${FIRST_FIELD + this.page.elements.number(field)} ${variable}`;
  }

  /**
   * Records an access to a field in the document, if code runs.
   * @param {string} mode
   * @param {Element} field
   * @param {string} variable
   * @param {import('../types').Found} found
   */
  #access(mode, field, variable, found) {
    const { recording, page } = this;
    if (recording.isRunning() && apply(page.natives.isConnected, field, [])) recording.access(mode, this.#location(field, variable), undefined, found);
  }

  /**
   * Hooks a property of form fields: reads and writes of it are accesses to the field's variable.
   * @param {object} owner
   * @param {string} name
   * @param {string} variable
   */
  #replaceField(owner, name, variable) {
    const fields = this;
    replaceProperty(owner, name, (native) => ({
      get() {
        fields.#access('r', this, variable, () => apply(native.get, this, []));
        return apply(native.get, this, []);
      },
      set(value) {
        fields.#access('w', this, variable, () => apply(native.get, this, []));
        if (variable === 'checked' && value) each(fields.forms.radiosBeside(this), (radio) => fields.#access('w', radio, variable, () => fields.forms.contentOf(radio, variable)));
        apply(native.set, this, [value]);
      },
    }));
  }

  /** What a list of options has as its value, by way of the options. */
  #replaceOptions() {
    const fields = this;
    const { HTMLOptionElement, HTMLSelectElement } = this.page.window;
    const touch = (/** @type {string} */ mode, /** @type {Element|null} */ list) => {
      if (list) fields.#access(mode, list, 'value', () => fields.forms.contentOf(list, 'value'));
    };
    replaceProperty(HTMLOptionElement.prototype, 'selected', (native) => ({
      get() {
        touch('r', fields.forms.listOf(this));
        return apply(native.get, this, []);
      },
      set(value) {
        touch('w', fields.forms.listOf(this));
        apply(native.set, this, [value]);
      },
    }));
    replaceGetter(HTMLSelectElement.prototype, 'selectedOptions', (native) => function selectedOptions() {
      touch('r', this);
      return apply(native, this, []);
    });
  }

  /**
   * A form is reset once the handlers of the event are done, if none prevents it. Called by page/events/dispatches.js.
   * @param {import('../types').NewDispatch} dispatch
   */
  watchReset(dispatch) {
    const { event, target } = dispatch;
    if (!event || !target || event.type !== 'reset' || !event.isTrusted || target.localName !== 'form') return;
    dispatch.whenClosed = () => {
      if (!event.defaultPrevented) each(this.forms.fieldsOf(target), ({ 0: field, 1: variable }) => this.#writeNow(field, variable));
    };
  }

  /**
   * The browser has changed a field, in a call of the page's or by itself.
   * @param {Element} field
   * @param {string} variable
   */
  #writeNow(field, variable) {
    const { recording, page } = this;
    if (!apply(page.natives.isConnected, field, [])) return;
    recording.accessNow('w', this.#location(field, variable), recording.contexts.length ? undefined : '', () => this.forms.contentOf(field, variable));
  }

  /**
   * A key is pressed at a field that the user can change: what its handlers do is not needed for the change. Called by page/events/dispatches.js.
   * @param {import('../types').Dispatch} dispatch which begins
   */
  noteKey(dispatch) {
    const { event, target, isInline } = dispatch;
    if (isInline || event?.type !== 'keydown' || !event.isTrusted || !isElement(target)) return;
    if (apply(this.page.natives.matches, target, [CHANGEABLE])) dispatch.pressed = this.recording.lastMoment();
  }

  /**
   * The user's change of a field belongs to the start of its `input` event. If handlers of its key have run, it is a write of the key's own event too: without
   * them the field would have changed as well, so it does not come after the code that registered them. Called by page/events/dispatches.js.
   * @param {Event} event
   * @param {any} target any target of events
   */
  writeInput(event, target) {
    if (!event.isTrusted || event.type !== 'input' || target.nodeType !== 1) return;
    const { dispatches } = this.recording;
    const key = findItem(dispatches, (one) => one.pressed !== undefined && one.target === target);
    if (key && findItem(dispatches, ({ group = -1 }) => group >= 0)) this.recording.noteIn(key.pressed, `w ${this.#location(target, 'value')}`);
    this.recording.accessNow('w', this.#location(target, 'value'), '');
    if (target.type === 'checkbox' || target.type === 'radio') this.recording.accessNow('w', this.#location(target, 'checked'), '');
    each(this.forms.radiosBeside(target), (radio) => this.recording.accessNow('w', this.#location(radio, 'checked'), ''));
  }

  /** Hooks `document.cookie`: all cookies are one variable. */
  #replaceCookie() {
    const { recording, page } = this;
    replaceProperty(page.window.Document.prototype, 'cookie', (native) => ({
      get() {
        recording.access('r', 'var 0 document.cookie');
        return apply(native.get, this, []);
      },
      set(value) {
        recording.access('w', 'var 0 document.cookie');
        apply(native.set, this, [value]);
      },
    }));
  }

  // ---- storage

  /**
   * Which storage of the window an object is: `localStorage`, `sessionStorage`, or '' if it is neither. Called by page/objects/properties.js.
   * @param {unknown} object
   */
  areaOf(object) {
    const { natives, window } = this.page;
    try {
      if (apply(natives.localStorage, window, []) === object) return 'localStorage';
      return apply(natives.sessionStorage, window, []) === object ? 'sessionStorage' : '';
    } catch {
      return ''; // a page that is not allowed to use storage
    }
  }

  /**
   * An access to an item of a storage of this window: by a method, or as `localStorage.theme` (objects/properties.js).
   * @param {string} mode
   * @param {object} storage
   * @param {string} key
   * @param {number} [site] of the code, if it is known
   */
  accessItem(mode, storage, key, site) {
    const location = `var 0 ${spellName(`${this.areaOf(storage)}.${sliceOf(key, 0, LONGEST_KEY)}`)}`;
    this.recording.access(mode, location, site, () => apply(this.getItem, storage, [key]) ?? undefined);
  }

  /**
   * A key that is an object becomes a text once, as without the recorder.
   * @param {string} name of the method
   */
  #replaceStorage(name) {
    const fields = this;
    const { recording, page, getItem } = this;
    const count = name === 'setItem' ? 2 : 1;
    replaceMethod(page.window.Storage.prototype, name, (native) => function store(...args) {
      const given = args[0];
      if (args.length < count || typeof given === 'symbol' || !fields.areaOf(this)) return apply(native, this, args);
      const key = String(given);
      args[0] = key;
      fields.accessItem(STORAGE_CALLS[name], this, key);
      if (name === 'getItem' || recording.pages.length < 2) return apply(native, this, args);
      const before = apply(getItem, this, [key]);
      apply(native, this, args);
      const after = apply(getItem, this, [key]);
      if (after !== before) page.causes.noteStorage(key, after);
      return undefined;
    });
  }
}

export { Fields };
