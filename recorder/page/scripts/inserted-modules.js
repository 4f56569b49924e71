// Inline modules (`<script type=module>`) that a script inserts. Their texts are those of the page, so each gets a mark at its start, which shows when it runs.

import { markIn, withoutMarks } from '../core/marks.js';
import { apply } from '../core/taken.js';
import { isElement } from '../core/things.js';

const TEXT = 3;

/** One for each document: `page.insertedModules`. */
class InsertedModules {
  /** @param {import('../types').Page} page */
  constructor(page) {
    this.page = page;
    this.recording = page.recording;
    /**
     * By the number in the mark.
     * @type {HTMLScriptElement[]}
     */
    this.scripts = [];
  }

  /**
   * A node is to be inserted: the browser takes the text of a script then. Called by page/events/calls.js.
   * @param {unknown} node
   */
  prepare(node) {
    if (!isElement(node) || node.localName !== 'script' || this.recording.isOver || !this.#isInlineModule(node)) return;
    const { data, firstChild, isConnected } = this.page.natives;
    const text = /** @type {Text|null} */ (apply(firstChild, node, []));
    if (!text || text.nodeType !== TEXT || text.nextSibling) return;
    const own = apply(data.get, text, []);
    if (withoutMarks(own) !== own) return;
    if (apply(isConnected, text, [])) this.recording.ownTexts.add(text);
    apply(data.set, text, [markIn(own, `;__er.insertedModule(${this.scripts.length});`) + own]);
    this.scripts[this.scripts.length] = /** @type {HTMLScriptElement} */ (node);
  }

  /**
   * Whether an element is one that has not started.
   * @param {Element} element
   */
  #isInlineModule(element) {
    const { document, elements, insertions, kinds, tree } = this.page;
    const hasStarted = insertions.started.has(element) || tree.staticScripts.has(elements.number(element));
    return !hasStarted && element.ownerDocument === document && kinds.scriptType(element) === 'module' && !kinds.hasSource(element);
  }

  /**
   * One begins to run: its text says so. Called by page/helpers/runs.js.
   * @param {number} number
   */
  begins(number) {
    const script = this.scripts[number];
    if (script) this.page.modules.beginsInserted(script);
  }
}

export { InsertedModules };
