// Scripts that are no JavaScript, and import maps that are no JSON: the window's error is in an empty run.

import { findItem, valuesOf } from '../core/lists.js';
import { withoutMarks } from '../core/marks.js';
import { fits, withoutFragment } from '../core/strings.js';
import { apply } from '../core/taken.js';

/** Made by page/page.js, as its `broken`. */
class Broken {
  /** @param {import('../types').Page} page */
  constructor(page) {
    this.page = page;
    this.recording = page.recording;
    this.scripts = page.scripts;
  }

  /**
   * An error of the window because a script is no JavaScript: it belongs to the script's empty run. Called by page/events/capturing.js.
   * @param {ErrorEvent} event
   */
  run({ filename, message }) {
    if (!fits(/SyntaxError/, message)) return false;
    this.recording.startTask();
    if (fits(/import map/, message)) return this.#runBrokenMap();
    const script = this.#findBroken(filename);
    return !!script && (this.scripts.runEmpty(script) || this.#runEmptyLate(script));
  }

  /**
   * The element of a script that is no JavaScript: an error says only the file, so the last parsed inline script, or the first script of that file that has not
   * run.
   * @param {string} filename
   * @returns {Element|undefined}
   */
  #findBroken(filename) {
    const { document, elements, natives, tree } = this.page;
    const last = tree.lastParsedElement;
    const isInline = last && elements.kinds.get(tree.lastParsed) === 'inline' && filename === withoutFragment(document.URL);
    /** @type {ArrayLike<Element>} */
    const scripts = isInline ? [last] : apply(natives.querySelectorAll, document.documentElement, ['script[src]']);
    const isIt = (/** @type {Element} */ one) => (isInline || /** @type {HTMLScriptElement} */ (one).src === filename) && !this.scripts.hasRun.has(elements.number(one));
    return findItem(scripts, isIt) || this.#findBrokenModule(filename);
  }

  /**
   * The deferred script that is to run next, if it is a module that is broken or imports a broken one: any other script has run.
   * @param {string} filename
   * @returns {Element|undefined}
   */
  #findBrokenModule(filename) {
    const { document, elements, insertions, kinds, natives, tree } = this.page;
    const isAsync = (/** @type {number} */ number) => elements.kinds.get(number) === 'async' && !this.scripts.hasRun.has(number);
    const canBeOther = insertions.due.size > 0 || findItem(valuesOf(tree.staticScripts), isAsync) !== undefined;
    if (canBeOther || apply(natives.readyState, document, []) !== 'interactive') return undefined;
    const next = valuesOf(tree.pendingDeferred)[0];
    /** @type {NodeListOf<Element>} */
    const modules = apply(natives.querySelectorAll, document.documentElement, ['script[type="module" i]']);
    const module = findItem(modules, (one) => elements.number(one) === next);
    if (!module || filename !== withoutFragment(document.URL)) return module;
    const text = module.textContent || '';
    return !kinds.hasSource(module) && withoutMarks(text) === text ? module : undefined; // one with marks has been parsed
  }

  /** The import map that the parser has made now is broken: what stands for it is an inline script. */
  #runBrokenMap() {
    const { elements, kinds, tree } = this.page;
    const map = tree.lastParsedElement;
    const isDue = map && map.localName === 'script' && fits(/^importmap$/i, kinds.attribute(map, 'type') || '') && !kinds.hasSource(map);
    if (!isDue || !tree.isParsing() || this.scripts.hasRun.has(tree.lastParsed)) return false;
    this.scripts.hasRun.add(tree.lastParsed);
    this.scripts.writeRun(null, tree.addHiddenScript({ standsFor: elements.number(map), why: 'it is broken' }));
    return true;
  }

  /**
   * The empty run of a script that the browser could not parse and that nothing waits for: its load event comes after the error.
   * @param {Element} element
   */
  #runEmptyLate(element) {
    const { elements, recording, sources } = this.page;
    const number = sources.loads.get(element)?.number || elements.number(element);
    const isAsync = number !== elements.number(element) || elements.kinds.get(number) === 'async';
    if (!isAsync || !recording.declared.has(elements.number(element)) || this.scripts.hasRun.has(number) || this.scripts.whyTooLate(number, 'async')) return false;
    this.scripts.writeRun(element, number);
    return true;
  }
}

export { Broken };
