// Runs of scripts: what instrumented code calls at its start and end, and scripts that fail.

import { each, positionOf, valuesOf } from '../core/lists.js';
import { withoutMarks } from '../core/marks.js';
import { fits } from '../core/strings.js';
import { Set, apply } from '../core/taken.js';
import { fileOnStack } from '../log/stack.js';

const TEXT = 3;

/** @typedef {import('../types').TraceEvent} TraceEvent */
/**
 * A function that becomes a global as a script begins: its name and its place.
 * @typedef {[name: string, place: number]} FunctionOfScript
 */

/** One for each document: `page.scripts`. */
class Scripts {
  /** @param {import('../types').Page} page */
  constructor(page) {
    this.page = page;
    this.recording = page.recording;
    /** @type {Set<number>} */
    this.hasRun = new Set();
    /**
     * The script that was the last to run, and the event of its run.
     * @type {{element: Element|null, number: number, event: TraceEvent|null}}
     */
    this.last = { element: null, number: 0, event: null };
  }

  // ---- classic scripts

  /**
   * Called by the marks at the start of a script.
   * @param {HTMLScriptElement|null} element null in a module that looks like a classic script, as one without imports, and in a shadow tree
   * @param {number} site
   * @param {FunctionOfScript[]} functions
   */
  begins(element, site, functions) {
    const { recording, page } = this;
    const { contexts } = recording;
    if (element) this.showOwnText(element);
    if (recording.isOver) return;
    const isInside = contexts.length > 0 && contexts[contexts.length - 1] !== 'script';
    if (element ? isInside : contexts[contexts.length - 1] === 'call') {
      this.#beginInside(functions);
      return;
    }
    const address = element ? '' : fileOnStack();
    const script = element || this.#findHidden(address);
    if (script === undefined) {
      page.modules.begins(address, site);
      return;
    }
    if (script && !element) this.showOwnText(script);
    recording.startTask();
    this.writeRun(script, script ? this.runnable(script) : page.tree.addHiddenScript(), site);
    recording.enter('script', functions);
    this.#declareFunctions(functions);
  }

  /** @param {FunctionOfScript[]} functions */
  #declareFunctions(functions) {
    each(functions, ({ 0: name, 1: place }) => this.page.globals.declare(name, place));
  }

  /**
   * The script in a shadow tree that begins to run.
   * @param {string} address
   * @returns {Element|null|undefined} null: one in a closed tree; undefined: no script but a module
   */
  #findHidden(address) {
    const { recording, page } = this;
    if (recording.contexts.length) return undefined;
    recording.startTask();
    const found = page.shadows.findScript(address);
    return found && page.kinds.scriptType(found) === 'module' ? undefined : found;
  }

  /**
   * In the page a script has its text without marks: it has begun, and its text is not run again. Called by modules.js.
   * @param {Element} element
   */
  showOwnText(element) {
    const { firstChild, data } = this.page.natives;
    const text = /** @type {Text|null} */ (apply(firstChild, element, []));
    if (!text || text.nodeType !== TEXT) return;
    const marked = apply(data.get, text, []);
    const own = withoutMarks(marked);
    if (own === marked) return;
    this.recording.ownTexts.add(text);
    apply(data.set, text, [own]);
  }

  /**
   * Writes that the script of an element runs, after what its kind comes after. Called by broken.js.
   * @param {Element|null} element
   * @param {number} number
   * @param {number} [site]
   */
  writeRun(element, number, site) {
    const { recording, page } = this;
    const kind = page.elements.kinds.get(number);
    this.hasRun.add(number);
    if (kind === 'defer') this.noteDeferred(number);
    recording.begin(`exec ${number}`, 'exec', site);
    if (kind === 'inline' || kind === 'sync') recording.running.blocks = page;
    this.noteRun(element, number);
    page.inOrder.begins(number);
    if (kind !== 'async') page.joins.here(page.observers.takeObserved(), 'what the parser waited for');
    if (kind === 'defer') page.loading.comeAfterParsing();
  }

  /**
   * What is known of a run once it has begun: whether load waits for it, and that the script's load event is to come in it. Called by modules.js.
   * @param {Element|null} element
   * @param {number} number
   */
  noteRun(element, number) {
    const { recording, page } = this;
    if (page.tree.staticScripts.has(number) || page.elements.awaited.has(number)) recording.running.awaits = page;
    if (element) {
      page.insertions.due.delete(element);
      recording.unmarked.marked.add(element);
    }
    this.last = { element, number, event: recording.running };
    page.joins.here(recording.formers.get(page.number) || [], 'the page before in the frame');
  }

  /**
   * A script that a script inserts or writes runs inside the running action.
   * @param {FunctionOfScript[]} functions
   */
  #beginInside(functions) {
    this.recording.enter('script');
    this.#declareFunctions(functions);
  }

  /** Called by the marks at the end of a script. */
  ends() {
    const { recording } = this;
    if (recording.isOver) return;
    if (recording.contexts[recording.contexts.length - 1] !== 'script') {
      this.page.modules.ends(fileOnStack());
      return;
    }
    this.noteEnd();
    recording.leave();
  }

  /**
   * The code that runs is over: if it is that of a script element, what waits for its run comes after this. Also called if it ends in an error. Called by
   * page/events/capturing.js.
   */
  noteEnd() {
    const { recording } = this;
    if (recording.contexts.length === 1 && recording.running === this.last.event) this.#noteEndOf(this.last.number);
  }

  /**
   * The run of a script element is over, also of one that failed.
   * @param {number} number
   */
  #noteEndOf(number) {
    const { elements, inOrder, loading } = this.page;
    inOrder.ends(number);
    if (fits(/^(inline|sync)$/, elements.kinds.get(number) || '')) loading.noteRunOf(number);
  }

  /**
   * A deferred script runs: the parser has nothing more to do for it, and for those before it, which have failed. Called by modules.js.
   * @param {number} number
   */
  noteDeferred(number) {
    const { tree } = this.page;
    const pending = valuesOf(tree.pendingDeferred);
    const position = positionOf(pending, number);
    each(pending, (one, k) => { if (k <= position) tree.pendingDeferred.delete(one); });
    tree.hasRunDeferred = true;
  }

  // ---- which element runs

  /**
   * The element whose run this can be: a further `async` one if the format does not allow the script's own now, or if its source was set later. Called by
   * modules.js.
   * @param {Element} element
   * @returns {number}
   */
  runnable(element) {
    const { elements, recording, sources } = this.page;
    const number = elements.declaredNumber(element);
    const kind = elements.kinds.get(number) || '';
    const source = sources.loads.get(element);
    if (source && !this.hasRun.has(source.number)) return source.number;
    const isScript = fits(/^(inline|sync|defer|async)$/, kind);
    const why = isScript && !this.hasRun.has(number) ? this.whyTooLate(number, kind) : 'it had run, or was no script when it was made';
    if (!why) return number;
    const standIn = recording.next('element');
    elements.kinds.set(standIn, 'async');
    recording.noteBeside(number, `new ${this.page.number} ${standIn} async`);
    recording.log.name('element', standIn, { standsFor: number, why });
    recording.log.miss('scripts that ran later than the format allows, recorded as async ones');
    return standIn;
  }

  /**
   * Why the run of a static script would be out of order, or ''. Called by broken.js.
   * @param {number} number
   * @param {string} kind
   */
  whyTooLate(number, kind) {
    const { tree, loading } = this.page;
    if (!tree.staticScripts.has(number)) return '';
    if (loading.hasBegunLoad) return 'it ran after load';
    if (kind === 'async') return '';
    if (loading.hasBegunDomContentLoaded) return 'it ran after DOMContentLoaded';
    if (kind === 'defer') return '';
    if (tree.hasRunDeferred) return 'it ran after a deferred script';
    return tree.lastParsed === number ? '' : 'the parser had gone on';
  }

  // ---- load events and failures

  /**
   * Whether the run of a script is the running event, and its load event belongs to the run: the parser, or DOMContentLoaded, waits for both. Called by
   * page/document/loading.js.
   * @param {Element} element
   */
  isRunning(element) {
    const { elements, sources } = this.page;
    const isAsync = elements.kinds.get(elements.number(element)) === 'async' || sources.loads.has(element);
    return !isAsync && this.last.element === element && this.last.event === this.recording.running;
  }

  /**
   * A script for which the parser or DOMContentLoaded waits has failed: an empty run stands for it. Returns whether there can be one. Called by
   * page/document/loading.js and broken.js.
   * @param {Element} element
   */
  runEmpty(element) {
    this.recording.startTask(); // the page may have another document by it
    const { elements, tree } = this.page;
    const number = elements.number(element);
    const kind = elements.kinds.get(number) || '';
    const isDue = tree.staticScripts.has(number) && kind !== 'async' && !this.hasRun.has(number);
    if (!isDue || this.whyTooLate(number, kind)) return false;
    this.writeRun(element, number);
    this.#noteEndOf(number);
    return true;
  }
}

export { Scripts };
