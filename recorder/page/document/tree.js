// Changes of a document's tree, as a mutation observer reports them. What changes while no script runs is the parser's: each element is a parse step. Nodes
// that are added to the DOM, moved or removed from it, and attributes that change. Made by page/page.js, as its `tree`.

import { each, findItem, joined } from '../core/lists.js';
import { Set, WeakMap, apply } from '../core/taken.js';
import { isElement, isMedia } from '../core/things.js';
import { spellName } from '../log/spelling.js';
import { placeOnStack } from '../log/stack.js';
import { Texts } from './texts.js';

/** With `--depth globals` no other attributes are asked for. */
const ATTRIBUTES = ['id', 'open', 'class', 'style', 'disabled'];

/**
 * Who changed the tree.
 * @typedef {'parser'|'script'|'browser'} Maker
 */
/** @typedef {import('../types').Moment} Moment */

class Tree {
  /** @param {import('../types').Page} page */
  constructor(page) {
    this.page = page;
    this.recording = page.recording;
    this.natives = page.natives;
    this.elements = page.elements;
    /**
     * The numbers of the scripts that the parser made, and of all that it made and the window's load waits for.
     * @type {Set<number>}
     */
    this.staticScripts = new Set();
    /** @type {Set<number>} */
    this.staticLoads = new Set();
    /** @type {Set<number>} */
    this.pendingDeferred = new Set();
    this.hasRunDeferred = false;
    /** The number of the element of the last parse step, the element, and the moment of the step. */
    this.lastParsed = 0;
    /** @type {Element|null} */
    this.lastParsedElement = null;
    /** @type {Moment|null} */
    this.lastStep = null;
    /** @type {WeakMap<Element, Moment>} the steps that made elements */
    this.steps = new WeakMap();
    this.texts = new Texts(page);
    /**
     * The browser's own changes after the parsing, until the next action begins.
     * @type {MutationRecord[]}
     */
    this.late = [];
    /**
     * The place of the code whose changes of the tree are written now; it is looked up once.
     * @type {string|null}
     */
    this.placeOfChanges = null;
    this.observer = new this.natives.MutationObserver((/** @type {MutationRecord[]} */ records) => {
      if (!this.recording.isOver) this.#handle(records, this.recording.isRunning() ? 'script' : 'parser');
    });
  }

  /**
   * Adds the elements that are there, and watches the document from now on.
   * @param {Maker} [maker] who made what is in the document by now
   */
  start(maker = 'script') {
    const { document } = this.page;
    if (document.documentElement) this.#addTree(document.documentElement, maker);
    this.watch(document);
  }

  /** The window shows another document: what was changed so far is taken, as its task has begun. Called by page/page.js. */
  stop() {
    this.observer.disconnect();
  }

  /** Observes a document or a shadow tree. Called by shadows.js. */
  watch(/** @type {Node} */ root) {
    this.observer.observe(root, {
      childList: true, subtree: true, attributes: true, attributeOldValue: true,
      ...(this.recording.objects ? { characterData: true } : { attributeFilter: ATTRIBUTES }),
    });
  }

  // ---- changes

  /** Takes the changes so far. Called by page/events/calls.js, page/frames.js and page/recording/recording.js. */
  collect(/** @type {'script'|'parser'} */ by) {
    const records = this.observer.takeRecords();
    if (records.length) this.#handle(records, by);
  }

  /** Whether the format allows further parse steps of the document. */
  isParsing() {
    return !this.page.loading.hasBegunDomContentLoaded && !this.hasRunDeferred;
  }

  /**
   * Takes changes that the observer has, in the action that runs: by the parser, or by a script.
   * @param {MutationRecord[]} records
   * @param {'script'|'parser'} by
   */
  #handle(records, by) {
    const maker = by === 'parser' && this.isParsing() ? 'parser' : 'script';
    if (by === 'parser' && maker === 'script') {
      this.late = joined(this.late, records); // the browser's own work after the parsing: it belongs to what begins next
      return;
    }
    if (maker === 'parser') {
      this.recording.finishAll();
      this.elements.writeJoining();
    }
    this.placeOfChanges = null;
    each(records, (record) => this.#handleOne(record, maker));
    this.texts.writeRest();
  }

  /** Changes that the browser made while no script ran belong to the action that has begun now. Called by page/events/dispatches.js. */
  writeLate() {
    const records = this.late;
    this.late = [];
    this.placeOfChanges = '';
    each(records, (record) => this.#handleOne(record, 'browser'));
  }

  /**
   * One change of the tree, by its kind.
   * @param {MutationRecord} record
   * @param {Maker} maker
   */
  #handleOne(record, maker) {
    if (this.#isOfHold(record)) return;
    if (record.type === 'childList') this.#handleChildren(record, maker);
    else if (record.type === 'attributes') this.#handleAttribute(record, maker);
    else if (maker === 'parser') this.texts.note(record, record.target);
    if (maker !== 'parser') this.noteChange(record);
  }

  /**
   * Nodes came and went. Of a shadow tree none is removed, as nothing looks its elements up from outside.
   * @param {MutationRecord} record
   * @param {Maker} maker
   */
  #handleChildren(record, maker) {
    if (!this.page.shadows.has(record.target)) each(record.removedNodes, (node) => this.#removeTree(node, maker));
    each(record.addedNodes, (node) => {
      if (maker !== 'parser') {
        this.#addTree(node, maker);
        return;
      }
      this.add(node, maker);
      if (isElement(node)) this.noteChange(record);
      else this.texts.note(record, node);
    });
  }

  /**
   * An attribute that others read by other ways: an id (lookups), `disabled` (what a user reaches), `open` (an event), classes and styles (motions).
   * @param {MutationRecord} record
   * @param {Maker} maker
   */
  #handleAttribute({ target, attributeName, oldValue }, maker) {
    if (!isElement(target)) return;
    if (attributeName === 'id' && !this.page.shadows.has(target)) {
      this.#writeId(oldValue, maker);
      this.#writeId(this.elements.idOf(target), maker);
    }
    if (attributeName === 'disabled') this.page.controls.noteAttribute(target, oldValue, maker);
    if (maker !== 'script') return;
    if (attributeName === 'open') this.page.causes.noteOpen(target);
    else if (attributeName) this.page.motions.noteChange(target, attributeName);
  }

  /** A script at which a replay lets the parser wait comes and goes: the page's content is the same. */
  #isOfHold(/** @type {MutationRecord} */ { addedNodes, removedNodes }) {
    const { steering } = this.recording;
    const isWithout = (/** @type {NodeList} */ nodes) => !findItem(nodes, (node) => !steering.isHold(node));
    return steering.isActive && addedNodes.length + removedNodes.length > 0 && isWithout(addedNodes) && isWithout(removedNodes);
  }

  /** Records a change as a write of the element's variables, if objects have variables. Called by texts.js. */
  noteChange(/** @type {MutationRecord} */ record) {
    const { objects } = this.recording;
    if (objects) objects.trees.noteChange(record);
  }

  /** @param {string|null} id @param {Maker} maker */
  #writeId(id, maker) {
    if (!id) return;
    const isParser = maker === 'parser';
    const location = `elem ${this.page.number} ${spellName(id)}`;
    this.recording.accessNow('w', location, isParser ? '' : this.#placeOfCode(), isParser ? 'o' : () => this.elements.find(id));
  }

  /** The place of the code that made the changes which are written now. */
  #placeOfCode() {
    if (this.placeOfChanges === null) this.placeOfChanges = placeOnStack();
    return this.placeOfChanges;
  }

  // ---- elements that come and go

  /** @param {Node} node @param {Maker} maker */
  #removeTree(node, maker) {
    if (!isElement(node)) return;
    this.#writeId(this.elements.idOf(node), maker);
    each(apply(this.natives.querySelectorAll, node, ['[id]']), (element) => this.#writeId(this.elements.idOf(element), maker));
  }

  /**
   * A script inserted an element with all in it. Each is added, so that lookups have something to race with.
   * @param {Node} node
   * @param {Maker} maker
   */
  #addTree(node, maker) {
    if (!isElement(node)) return;
    this.add(node, maker);
    if (node.firstElementChild) each(apply(this.natives.querySelectorAll, node, ['*']), (element) => this.add(element, maker));
  }

  /**
   * An element has come: declares it, unless it is known, and reads its handlers. Called by shadows.js.
   * @param {Node} node
   * @param {Maker} maker
   */
  add(node, maker) {
    if (!isElement(node) || this.recording.steering.isHold(node)) return;
    const { elements, recording, page } = this;
    if (!recording.declared.has(elements.number(node))) {
      if (maker === 'parser') this.#addParsed(node);
      else this.#addMade(node);
      page.onHandlers.readAttributes(node);
    } else {
      if (elements.idOf(node)) recording.log.name('element', elements.number(node), { id: elements.idOf(node) });
      if (maker === 'script') page.insertions.noteDeclared(node);
    }
    page.controls.noteAdded(node, maker);
    page.reach.noteAdded(node, maker);
    page.motions.noteAdded(node);
    if (!page.shadows.has(node)) this.#writeId(elements.idOf(node), maker);
    if (maker === 'parser') page.shadows.look(node);
  }

  // ---- parse steps

  /** The parser has made an element: a step of it, unless it is one that a script had made. */
  #addParsed(/** @type {Element} */ element) {
    const kind = this.elements.declaration(element, true);
    this.elements.markDeclared(element, kind);
    this.writeParsed(element, this.elements.number(element), kind);
  }

  /** A script in a closed shadow tree, which nothing finds, is made as it begins to run; so is what stands for a broken import map. */
  addHiddenScript(/** @type {import('../types').Facts} */ facts = { tag: 'script', document: this.page.number }) {
    const number = this.recording.next('element');
    this.recording.declared.add(number);
    this.elements.kinds.set(number, 'inline');
    this.recording.log.name('element', number, facts);
    this.writeParsed(null, number, 'inline');
    return number;
  }

  /**
   * Writes a step of the parser. Called by elements.js.
   * @param {Element|null} element null: a script in a closed shadow tree
   * @param {number} number
   * @param {string} kind
   */
  writeParsed(element, number, kind) {
    const { recording } = this;
    recording.beginParse(this.page.number, `${number} ${kind}`);
    recording.running.awaits = this.page;
    this.lastParsed = number;
    this.lastParsedElement = element;
    this.lastStep = recording.lastMoment();
    if (element) this.steps.set(element, this.lastStep);
    if ((!element || element.localName === 'script') && kind !== 'plain') this.staticScripts.add(number);
    if (element && element.localName === 'script' && kind !== 'plain') this.page.insertions.noteUnmarked(element);
    this.texts.write();
    if (kind === 'defer') this.pendingDeferred.add(number);
    if (kind !== 'plain') this.staticLoads.add(number);
  }

  // ---- elements that scripts make

  /** Declares an element that a script made. */
  #addMade(/** @type {Element} */ element) {
    const { elements, page } = this;
    const isWritten = page.calls.isWriting() && page.kinds.scriptType(element) !== null && elements.isBlocking(element);
    const kind = elements.declaration(element, isWritten && page.kinds.ofStaticScript(element) !== 'inline');
    const number = elements.number(element);
    elements.markDeclared(element, kind);
    if (element.localName === 'script' && page.insertions.starts(element) && !page.calls.isWriting()) page.inOrder.note(element, number);
    if (element.localName === 'source' && isMedia(element.parentNode)) page.media.noteLoading(element.parentNode);
    if (elements.joinsParsing(element, number, kind)) return;
    elements.noteAwaited(element, number, kind);
    this.recording.log.line(`new ${page.number} ${number} ${kind}`, this.#placeOfCode());
  }
}

export { Tree };
