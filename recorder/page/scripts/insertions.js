// Scripts that are declared before a script inserts them, as by a handler that was set, or because they were data: they start at the insertion. So do the
// loads of style sheets. These are injected scripts (`appendChild`).

import { withoutMarks } from '../core/marks.js';
import { fits } from '../core/strings.js';
import { Set, WeakSet, apply } from '../core/taken.js';
import { MADE_OF_TEXT } from '../log/log.js';

/** `nodeType` of a text. */
const TEXT = 3;
/** Elements that load what they have only once they are in the document, and whose kind is in an attribute. */
const LOADS_INSERTED = /^(link|object|embed|input)$/;

/** One for each document: `page.insertions`. */
class Insertions {
  /** @param {import('../types').Page} page */
  constructor(page) {
    this.page = page;
    this.recording = page.recording;
    /**
     * The scripts that have started: a further insertion is none to them.
     * @type {WeakSet<Element>}
     */
    this.started = new WeakSet();
    /**
     * Those of them that have not run.
     * @type {Set<Element>}
     */
    this.due = new Set();
    /**
     * The scripts that run when they are inserted: a call of the page has made them, and no text that it has set (`innerHTML`).
     * @type {WeakSet<Element>}
     */
    this.made = new WeakSet();
  }

  /** A call of the page has made an element, which can be a script. Called by page/document/made.js and page/events/calls.js. */
  noteMade(/** @type {Element} */ element) {
    if (element.localName === 'script') this.made.add(element);
  }

  /**
   * A script is inserted. Returns whether it starts by that, and runs later. Called by page/document/tree.js.
   * @param {Element} element
   */
  starts(element) {
    const { calls, kinds, tree, elements } = this.page;
    if (this.started.has(element) || tree.staticScripts.has(elements.number(element))) return false;
    const isEmpty = !kinds.hasSource(element) && !element.textContent;
    if (isEmpty || !kinds.scriptType(element)) return false;
    this.started.add(element);
    const runsLater = kinds.ofInsertedScript(element) === 'async';
    if (runsLater) this.#noteRunningLater(element);
    else if (this.made.has(element) || calls.isWriting()) {
      this.recording.log.miss(MADE_OF_TEXT);
      this.recording.unmarked.noteAnywhere();
    }
    return runsLater;
  }

  /** @param {Element} element */
  #noteRunningLater(element) {
    this.due.add(element);
    if (this.page.kinds.hasSource(element)) this.noteUnmarked(element);
    else this.recording.unmarked.noteAnywhere();
  }

  /**
   * A script of the parser, or one with a source, has come: some have no marks, as those with a `data:` address. Called by page/document/tree.js.
   * @param {Element} element
   */
  noteUnmarked(element) {
    const { page: { kinds, natives }, recording } = this;
    if (kinds.hasSource(element)) {
      recording.unmarked.noteAddress(kinds.attribute(element, 'src') || '');
      return;
    }
    const text = /** @type {Text|null} */ (apply(natives.firstChild, element, []));
    if (!text || text.nodeType !== TEXT || recording.ownTexts.has(text)) return;
    const own = apply(natives.data.get, text, []);
    if (own && withoutMarks(own) === own) recording.unmarked.noteAnywhere();
  }

  /**
   * A script that is declared already is inserted: its run comes after that. Called by page/document/tree.js.
   * @param {Element} element
   */
  noteDeclared(element) {
    this.#noteLoading(element);
    if (element.localName !== 'script' || !this.starts(element)) return;
    const { elements, inOrder, sources } = this.page;
    const isMadeHere = elements.makers.get(element) === this.recording.running;
    inOrder.note(element, isMadeHere ? elements.number(element) : sources.standIn(element, 'async', 'it was inserted').number);
  }

  /**
   * What loads only now that it is inserted: a style sheet's link that another event has declared, and what was declared before it had what it loads by,
   * as by a handler.
   * @param {Element} element
   */
  #noteLoading(element) {
    const { elements, kinds, sources } = this.page;
    if (!fits(LOADS_INSERTED, element.localName) || !this.recording.isRunning()) return;
    const isMadeHere = elements.makers.get(element) === this.recording.running;
    if (isMadeHere ? elements.kinds.get(elements.number(element)) !== 'plain' : element.localName !== 'link') return;
    const kind = kinds.of(element, false);
    if (kind === 'image' || kind === 'frame') sources.standIn(element, kind, 'it was inserted');
  }

  /**
   * A script gets a source: one that is in the document starts. Called by page/document/sources.js.
   * @param {Element} element
   */
  noteSource(element) {
    const { kinds, natives } = this.page;
    if (element.localName !== 'script' || !apply(natives.isConnected, element, []) || !kinds.scriptType(element)) return;
    if (!this.started.has(element)) this.due.add(element);
    this.started.add(element);
    this.noteUnmarked(element);
  }
}

export { Insertions };
