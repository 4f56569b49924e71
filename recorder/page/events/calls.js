// Calls of the browser that may dispatch events or change the tree while a script runs, as `click()`, `focus()`, `append()`, `document.write`.

import { each } from '../core/lists.js';
import { replaceMethod, replaceProperty } from '../core/replacing.js';
import { settings } from '../core/settings.js';
import { fits } from '../core/strings.js';
import { Set, apply } from '../core/taken.js';

/** @type {[string, string[]][]} */
const INSERTIONS = [
  ['Node', ['appendChild', 'insertBefore', 'replaceChild', 'removeChild']],
  ['Element', ['append', 'prepend', 'before', 'after', 'replaceWith', 'replaceChildren', 'insertAdjacentElement', 'insertAdjacentHTML', 'remove', 'setHTMLUnsafe']],
  ['CharacterData', ['before', 'after', 'replaceWith', 'remove']],
  ['DocumentFragment', ['append', 'prepend', 'replaceChildren']],
  ['Document', ['append', 'prepend', 'replaceChildren', 'write', 'writeln', 'open', 'close', 'execCommand']],
  ['Range', ['insertNode', 'extractContents', 'deleteContents', 'surroundContents']],
];
/** @type {[string, string[]][]} */
const SETTERS = [['Element', ['innerHTML', 'outerHTML']], ['Node', ['textContent']], ['HTMLElement', ['innerText', 'outerText']]];
/** @type {[string, string[]][]} */
const DISPATCHERS = [
  ['HTMLElement', ['click', 'focus', 'blur']],
  ['SVGElement', ['focus', 'blur']],
  ['HTMLFormElement', ['reset', 'requestSubmit', 'submit', 'checkValidity', 'reportValidity']],
  ['HTMLInputElement', ['select', 'setSelectionRange', 'checkValidity', 'reportValidity']],
  ['HTMLTextAreaElement', ['select', 'setSelectionRange']],
  ['HTMLDialogElement', ['show', 'showModal', 'close']],
  ['AbortController', ['abort']],
];
/** Elements that are declared where a script inserts them, as their kind is not known before. */
const DECLARED_AT_INSERTION = new Set(['script', 'iframe', 'frame', 'link', 'object', 'embed']);

/** One for each document: `page.calls`. */
class Calls {
  /** @param {import('../types').Page} page */
  constructor(page) {
    this.page = page;
    this.recording = page.recording;
    /** How much is on the stack inside the call of `document.write` that runs. */
    this.writing = 0;
  }

  /** Whether `document.write` makes elements now, and no script that it wrote. Called by page/document/tree.js and page/scripts/insertions.js. */
  isWriting() {
    return this.writing > 0 && this.recording.contexts.length === this.writing;
  }

  /** Hooks the calls of the tables above. One call per document, before its code runs. */
  start() {
    const { window } = this.page;
    each(INSERTIONS, ({ 0: owner, 1: names }) => each(names, (name) => this.replaceCall(window[owner].prototype, name, true)));
    each(DISPATCHERS, ({ 0: owner, 1: names }) => each(names, (name) => this.replaceCall(window[owner].prototype, name, false)));
    each(SETTERS, ({ 0: owner, 1: names }) => each(names, (name) => this.#replaceSetter(window[owner].prototype, name)));
    this.#replaceDispatching(window.EventTarget.prototype);
    this.#replaceCreation(window.Document.prototype);
  }

  /**
   * Runs a call of the browser: dispatches in it are inline, and they are over as it returns. One that a driver's code makes is in no event. Called by
   * page/tasks/requests.js.
   * @template T
   * @param {() => T} call
   * @param {boolean} isInsertion
   */
  around(call, isInsertion) {
    const { recording, page } = this;
    if (recording.isOver || (settings.isDriven && !recording.isRunning())) return call();
    if (!recording.isRunning()) page.jobs.beginUnseen();
    else if (isInsertion) page.tree.collect('script');
    const height = recording.dispatches.length;
    recording.enter('call');
    try {
      return call();
    } finally {
      recording.finishAbove(height);
      if (isInsertion) each(recording.pages, (one) => one.tree.collect('script'));
      recording.leaveCall();
    }
  }

  /**
   * Puts a function of the recorder around a method that may dispatch events or change the tree. Also for tasks/requests.js.
   * @param {any} owner its members differ by interface
   * @param {string} name
   * @param {boolean} isInsertion
   */
  replaceCall(owner, name, isInsertion) {
    const calls = this;
    const around = isInsertion && fits(/^write(ln)?$/, name) ? (/** @type {() => any} */ call) => calls.#aroundWrite(call) : (/** @type {() => any} */ call) => calls.around(call, isInsertion);
    const isOpener = isInsertion && fits(/^(open|write(ln)?)$/, name);
    replaceMethod(owner, name, (native) => function called(...words) {
      if (isInsertion) each(words, (word) => calls.page.insertedModules.prepare(word));
      if (!isOpener || this !== calls.page.document) return around(() => apply(native, this, words));
      const before = calls.page.document.documentElement;
      const result = around(() => apply(native, this, words));
      if (before !== calls.page.document.documentElement) calls.#noteOpened(name === 'open');
      return result;
    });
  }

  /**
   * All handlers of the document were removed, the recorder's too. What `document.write` wrote can have others by now.
   * @param {boolean} isEmpty
   */
  #noteOpened(isEmpty) {
    const { capturing, document, handlers, onHandlers, window } = this.page;
    capturing.captureAgain();
    if (!isEmpty || this.recording.isOver) return;
    each([document, window], (target) => {
      handlers.forgetAll(target);
      onHandlers.forgetAll(target);
    });
  }

  /**
   * Calls `document.write`, in which the parser makes elements while a script runs. Calls can be nested: a written script may write.
   * @template T
   * @param {() => T} call
   * @returns {T}
   */
  #aroundWrite(call) {
    const outer = this.writing;
    this.writing = this.recording.contexts.length + 1;
    try {
      return this.around(call, true);
    } finally {
      this.writing = outer;
    }
  }

  /**
   * Hooks a property whose new value changes the tree, as `innerHTML`.
   * @param {any} owner its members differ by interface
   * @param {string} name
   */
  #replaceSetter(owner, name) {
    const calls = this;
    replaceProperty(owner, name, (native) => ({
      set(value) {
        calls.around(() => apply(native.set, this, [value]), true);
      },
    }));
  }

  /**
   * Hooks `dispatchEvent`. If nothing has listened to the type so far, no dispatch was recorded: capturing.js then notes which handlers the event would have
   * found.
   * @param {object} owner
   */
  #replaceDispatching(owner) {
    const calls = this;
    const { capturing } = this.page;
    replaceMethod(owner, 'dispatchEvent', (native) => function dispatchEvent(event) {
      const result = calls.around(() => apply(native, this, arguments), false);
      capturing.noteUnheard(event, this ?? calls.page.window);
      return result;
    });
  }

  /**
   * Hooks `createElement`: the element is declared in the action that makes it.
   * @param {any} owner its members differ by interface
   */
  #replaceCreation(owner) {
    const calls = this;
    const declare = (/** @type {Element} */ element) => {
      const { recording, page } = calls;
      recording.objects?.madeElements.note(element);
      page.insertions.noteMade(element);
      const isMine = element.ownerDocument === page.document;
      if (!recording.isOver && recording.isRunning() && isMine && !DECLARED_AT_INSERTION.has(element.localName)) {
        page.elements.declaredNumber(element);
      }
      return element;
    };
    each(['createElement', 'createElementNS'], (name) => {
      replaceMethod(owner, name, (native) => function create(...words) {
        return declare(apply(native, this, words));
      });
    });
  }
}

export { Calls };
