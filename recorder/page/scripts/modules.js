// Runs of modules, and `import()` (dynamic imports). ES modules (`<script type=module>`), also with a top-level `await`.

import { each, findItem, hasItem, joined, takeFirst } from '../core/lists.js';
import { fits, indexIn } from '../core/strings.js';
import { Map, apply } from '../core/taken.js';
import { fileOnStack } from '../log/stack.js';

/** @typedef {import('../types').TraceEvent} TraceEvent */
/** @typedef {import('../types').Moment} Moment */
/** @typedef {import('../types').ModuleRun} ModuleRun */
/**
 * What is known of an address that `import()` got: where its module has ended, and the calls whose run has not come.
 * @typedef {{moments: Moment[], isByOne: boolean, asked: {interval: number, event: TraceEvent}[]}} Import
 */

/** One for each document: `page.modules`. */
class Modules {
  /** @param {import('../types').Page} page */
  constructor(page) {
    this.page = page;
    this.recording = page.recording;
    /**
     * Runs that wait at the top of a module, before what imports it has run.
     * @type {ModuleRun[]}
     */
    this.waiting = [];
    /**
     * By address.
     * @type {Map<string, Import>}
     */
    this.imports = new Map();
    /** @type {Import|null} */
    this.lastImport = null;
    /**
     * By address: where a module has ended.
     * @type {Map<string, Moment>}
     */
    this.ended = new Map();
  }

  // ---- runs

  /**
   * A module's body begins. The modules that a script imports run in the same turn before it, so which element runs is known with the last one:
   * until then the run's line has a number of its own, which `is` names later. If one of them waits for something, what imports it runs later, as
   * a job. Called by page/helpers/runs.js and scripts.js.
   * @param {string} address
   * @param {number} site
   * @param {string[]} [sources] the modules that run before it, as it names them
   */
  begins(address, site, sources = []) {
    if (this.recording.isOver) return;
    const running = this.#runNow(site);
    const element = this.#find(address, site);
    if (element && !running.element) this.#tellElement(element, running);
    this.#tellAsked(address, running);
    this.page.joins.here(this.#endsOf(sources, address), 'the end of an imported module');
  }

  /**
   * The run of the module whose code is running: one that goes on after a wait, the running one, or a new one.
   * @param {number} [site]
   */
  #runNow(site) {
    const { recording } = this;
    const run = recording.moduleRun;
    const isSameTurn = run && recording.isRunning() && recording.running === run.event;
    const waiting = !isSameTurn && !recording.contexts.length && recording.isCheckpoint && takeFirst(this.waiting);
    const running = waiting ? this.#goesOnWith(waiting, site) : run && isSameTurn ? run : this.#beginRun(site);
    if (!recording.contexts.length) recording.enter('callback');
    return running;
  }

  /**
   * The text of a module that a script has inserted begins. No mark is at its end. Called by inserted-modules.js.
   * @param {HTMLScriptElement} script
   */
  beginsInserted(script) {
    const { recording } = this;
    if (recording.isOver) return;
    const running = this.#runNow();
    if (!running.element) this.#tellElement(script, running);
    if (running.moment?.event === running.event) this.page.loading.noteAwaitedRun(running.element, running.moment);
    this.page.natives.queueMicrotask(() => { if (recording.moduleRun === running) this.close(); });
  }

  /**
   * A module that two others import runs once: before each of them.
   * @param {string[]} sources
   * @param {string} address of what imports them
   */
  #endsOf(sources, address) {
    /** @type {Moment[]} */
    const ends = [];
    each(sources, (source) => {
      const end = this.ended.get(this.#resolve(source, address));
      if (end) ends[ends.length] = end;
    });
    return ends;
  }

  /**
   * Begins the run of a module of which it is not known yet which element or `import()` asked for it.
   * @param {number} [site]
   */
  #beginRun(site) {
    const { recording } = this;
    recording.startTask();
    const number = recording.next('module run');
    recording.begin(`module ${number}`, 'exec', site);
    /** @type {ModuleRun} */
    const run = { number, element: 0, asked: '', ends: [], event: recording.running, moment: null };
    recording.moduleRun = run;
    recording.enter('callback');
    run.moment = recording.moment();
    this.page.natives.queueMicrotask(() => { if (recording.moduleRun === run) this.close(); }); // the run's last module was not known
    return run;
  }

  /** A module waits at its top (`await`): its code so far has returned. Called by helpers/awaits.js. */
  waits() {
    const { recording } = this;
    const run = recording.moduleRun;
    if (!run || recording.running !== run.event || recording.contexts.length !== 1) return;
    if (!run.element && !hasItem(this.waiting, run)) this.waiting[this.waiting.length] = run;
    recording.leave();
  }

  /**
   * What imports a module that has waited runs after the run in which that one began, and after the end of each.
   * @param {ModuleRun} run
   * @param {number} [site]
   */
  #goesOnWith(run, site) {
    const { recording } = this;
    this.page.jobs.goesOn({ v: null, site, moment: run.moment, others: run.ends, why: 'the end of an imported module' });
    const further = { ...run, event: recording.running };
    recording.moduleRun = further;
    return further;
  }

  /**
   * The run turns out to be that of a script element: all that a script's run does is done for it.
   * @param {HTMLScriptElement} element
   * @param {ModuleRun} run
   */
  #tellElement(element, run) {
    const { recording } = this;
    const { elements, scripts } = this.page;
    scripts.showOwnText(element);
    const number = scripts.runnable(element);
    scripts.hasRun.add(number);
    run.element = number;
    const isDeferred = elements.kinds.get(number) === 'defer';
    if (isDeferred) scripts.noteDeferred(number);
    scripts.noteRun(element, number);
    if (isDeferred) this.page.loading.comeAfterParsing();
    this.page.inOrder.begins(number);
    recording.log.line(`is ${run.number} ${number}`);
  }

  /**
   * The script element of a module: by its address, an inline one by the site in its text.
   * @param {string} address
   * @param {number} site
   * @returns {HTMLScriptElement|undefined}
   */
  #find(address, site) {
    const { document, natives, scripts, elements } = this.page;
    const found = apply(natives.querySelectorAll, document.documentElement, ['script[type="module" i]']);
    return findItem(/** @type {NodeListOf<HTMLScriptElement>} */ (found), (script) => {
      if (scripts.hasRun.has(elements.number(script))) return false;
      return script.src ? script.src === address : this.#hasSite(script.textContent || '', site);
    });
  }

  /**
   * Whether the marks of a text have a site.
   * @param {string} text
   * @param {number} site
   */
  #hasSite(text, site) {
    return indexIn(text, `import.meta.url,${site})`) >= 0 || indexIn(text, `import.meta.url,${site},`) >= 0;
  }

  /**
   * Called by the marks at the end of a module.
   * @param {string} address
   */
  ends(address) {
    const { recording } = this;
    const moment = recording.moment();
    if (!moment) return;
    const run = recording.moduleRun;
    each(joined([run], this.waiting), (one) => { if (one) one.ends[one.ends.length] = moment; });
    this.#noteEnd(address, recording.mayDispatch() ? recording.point(this.page.number) : moment);
    if (run && recording.running === run.event && (run.element || run.asked === address)) this.close();
  }

  /**
   * A module has ended. What imports it later comes after that, and not after the rest of the run in which it was.
   * @param {string} address
   * @param {Moment} end
   */
  #noteEnd(address, end) {
    const imported = this.imports.get(address);
    if (imported) imported.moments[imported.moments.length] = end;
    this.ended.set(address, end);
  }

  /** The run of modules is over. Called by page/events/capturing.js. */
  close() {
    const { recording } = this;
    if (recording.moduleRun) this.page.inOrder.ends(recording.moduleRun.element);
    recording.moduleRun = null;
    if (recording.contexts.length) recording.leave();
  }

  /** Whether the body of a module runs, and nothing that it called. Called by page/events/capturing.js. */
  isRunning() {
    const { contexts, moduleRun, running } = this.recording;
    return !!moduleRun && running === moduleRun.event && contexts.length === 1;
  }

  // ---- import()

  /**
   * `import()` is called: the run of its module comes after this, and what waits for it after the module's end. Called by page/helpers/runs.js.
   * @param {unknown} specifier
   * @param {number} site
   * @param {string} [base]
   */
  importAsked(specifier, site, base) {
    const { recording } = this;
    this.lastImport = null;
    if (!recording.isRunning() || typeof specifier !== 'string') return specifier;
    const address = this.#resolve(specifier, base);
    const interval = recording.next('interval');
    recording.note(`every ${interval} 0`, site);
    recording.log.line(`asked ${interval} ${address ? 'known' : 'unknown'}`);
    recording.log.name('interval', interval, { why: 'import()' });
    if (!address) return specifier;
    const end = this.ended.get(address);
    const known = this.imports.get(address) || { moments: end ? [end] : [], isByOne: false, asked: [] };
    this.imports.set(address, known);
    known.asked[known.asked.length] = { interval, event: recording.running };
    this.lastImport = known;
    return specifier;
  }

  /**
   * The promise of an `import()` that was called now. Called by page/helpers/runs.js.
   * @param {Promise<unknown>} promise
   */
  noteImport(promise) {
    if (this.lastImport) this.page.promises.several.set(promise, this.lastImport);
    this.lastImport = null;
    return promise;
  }

  /**
   * The address of a module, unless an import map has a part in it.
   * @param {string} specifier
   * @param {string} [base]
   */
  #resolve(specifier, base) {
    if (!fits(/^(\.{0,2}\/|[a-z][a-z+.-]*:)/i, specifier)) return '';
    const script = base || fileOnStack() || this.page.document.baseURI;
    try {
      return new this.page.natives.URL(specifier, script).href;
    } catch {
      return ''; // no address
    }
  }

  /**
   * The run of a module that `import()` has requested. A further call for it requests no run.
   * @param {string} address
   * @param {ModuleRun} run
   */
  #tellAsked(address, run) {
    const known = this.imports.get(address);
    const asked = known && takeFirst(known.asked);
    if (!asked || run.element || run.asked) return;
    run.asked = address;
    run.event.after[run.event.after.length] = asked.event;
    this.recording.log.line(`came ${run.number} ${asked.interval}`);
  }
}

export { Modules };
