// Texts that the parser adds: each is written with the next step of the parser. Comments, and texts of white space alone, are left out.

import { each } from '../core/lists.js';
import { fits } from '../core/strings.js';
import { apply } from '../core/taken.js';

/** `nodeType` of a text. */
const TEXT = 3;

/** A part of `Tree`. */
class Texts {
  /** @param {import('../types').Page} page */
  constructor(page) {
    this.page = page;
    this.recording = page.recording;
    /**
     * Changes that belong to the next step.
     * @type {MutationRecord[]}
     */
    this.waiting = [];
  }

  /**
   * The parser has added a text, or has added to one. It does so after the step of the element before, maybe much later, and before its next step, to
   * which the change belongs. The text of a script belongs to the script's own step, since the script runs next. Called by tree.js.
   * @param {MutationRecord} record
   * @param {Node} node the text, or a comment
   */
  note(record, node) {
    if (node.nodeType !== TEXT || !fits(/\S/, apply(this.page.natives.data.get, node, []))) return;
    const parent = /** @type {Element|null} */ (record.type === 'characterData' ? record.target.parentNode : record.target);
    if (parent && parent.localName === 'script' && parent === this.page.tree.lastParsedElement) this.page.tree.noteChange(record);
    else if (this.recording.objects) this.waiting[this.waiting.length] = record;
  }

  /** Called in a step of the parser. Called by tree.js. */
  write() {
    const { waiting } = this;
    if (!waiting.length) return;
    this.waiting = [];
    each(waiting, (record) => this.page.tree.noteChange(record));
  }

  /** Texts after which no element has come yet have a step of their own. Called by tree.js. */
  writeRest() {
    const { recording, page } = this;
    if (!this.waiting.length) return;
    recording.beginStepOf(page.number, { tag: '#text' });
    this.write();
  }
}

export { Texts };
