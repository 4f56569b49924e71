// Elements: their numbers, their declarations, and the elements that stand for others in a dispatch. Their tag, id, classes and source, as the view shows them.

import { hasItem, keep, mapped } from '../core/lists.js';
import { fits, sliceOf, withoutFragment } from '../core/strings.js';
import { Map, Object, Set, WeakMap, apply, getPrototypeOf } from '../core/taken.js';
import { isElement } from '../core/things.js';

/** Elements that load something by an attribute other than `src`. */
const LOADS_BY = new Map([['link', 'href'], ['object', 'data']]);
const LOADS = /^(script|img|iframe|frame|link|input|object|embed)$/;
/** The interfaces of objects that a window or a document has from its start, one of each: whoever listens there first, they were there before. */
const OF_WINDOW = ['Bluetooth', 'Clipboard', 'CookieStore', 'DevicePosture', 'DocumentPictureInPicture', 'FontFaceSet', 'HID', 'MediaDevices', 'Navigation',
  'NavigatorManagedData', 'NetworkInformation', 'Performance', 'Screen', 'ScreenOrientation', 'Serial', 'ServiceWorkerContainer', 'SpeechSynthesis', 'USB',
  'VirtualKeyboard', 'VisualViewport', 'WindowControlsOverlay', 'XRSystem'];
/** Characters: of an address that tells elements apart (instrument/page.js), and of one that is compared with a request. */
const LONGEST_SOURCE = 200;
const LONGEST_ADDRESS = 2000;

/** @typedef {import('../types').Target} Target */
/** @typedef {import('../types').Moment} Moment */

/** One for each document: `page.elements`. */
class Elements {
  /** @param {import('../types').Page} page */
  constructor(page) {
    this.page = page;
    this.recording = page.recording;
    this.natives = page.natives;
    /** The prototypes of the objects that the window has from its start. */
    this.ofWindow = keep(mapped(OF_WINDOW, (name) => page.window[name]?.prototype), (prototype) => prototype !== undefined);
    /**
     * By number.
     * @type {Map<number, string>}
     */
    this.kinds = new Map();
    /**
     * The first page in each frame element.
     * @type {WeakMap<Element, {number: number, isUsed: boolean}>}
     */
    this.frameDocuments = new WeakMap();
    /**
     * By element: the event that declared it.
     * @type {WeakMap<EventTarget, import('../types').TraceEvent>}
     */
    this.makers = new WeakMap();
    /**
     * The numbers of elements that no parser made and that the window's load waits for.
     * @type {Set<number>}
     */
    this.awaited = new Set();
    /**
     * What a blocking script made and the window's load waits for, by number: it is written as parse steps directly after the script's run.
     * @type {Map<number, {kind: string, element: Element}>}
     */
    this.joining = new Map();
  }

  // ---- what an element says of itself

  /**
   * The value of an attribute, or null.
   * @param {Element} element
   * @param {string} name
   */
  attribute(element, name) {
    return this.page.kinds.attribute(element, name);
  }

  /**
   * A form can have a field that is called `id`, so the attribute is asked. Called by tree.js.
   * @param {Element} element
   */
  idOf(element) {
    return this.attribute(element, 'id');
  }

  /**
   * Whether an element has an attribute.
   * @param {Element} element
   * @param {string} name
   */
  has(element, name) {
    return this.page.kinds.has(element, name);
  }

  /**
   * The element with an id in this document. Called by page/accesses/globals.js, page/accesses/lookups.js and tree.js.
   * @param {string} id
   * @returns {Element|undefined}
   */
  find(id) {
    return apply(this.natives.getElementById, this.page.document, [id]) || undefined;
  }

  /**
   * What OUT.names.json has of a target. Called by page/objects/trees.js.
   * @param {Target} target
   */
  facts(target) {
    if (!isElement(target)) return { tag: sliceOf(apply(Object.prototype.toString, target, []), 8, -1) };
    const source = this.attribute(target, 'src');
    const { name } = /** @type {Element & {name?: unknown}} */ (target);
    return {
      tag: target.localName,
      id: this.idOf(target) || undefined,
      field: typeof name === 'string' && name ? name : undefined,
      source: source ? sliceOf(source, 0, LONGEST_SOURCE) : undefined,
      loads: this.addressOf(target),
      document: this.page.numberOfDocumentOf(target),
    };
  }

  /**
   * The whole address of what an element loads. Called by sources.js.
   * @param {Element} element
   */
  addressOf(element) {
    if (!fits(LOADS, element.localName)) return undefined;
    const address = /** @type {Element & {[name: string]: unknown}} */ (element)[LOADS_BY.get(element.localName) || 'src'];
    return typeof address === 'string' && address ? sliceOf(withoutFragment(address), 0, LONGEST_ADDRESS) : undefined;
  }

  // ---- numbers and declarations

  /**
   * The number of any target of events. A location may use it before anything declares it.
   * @param {EventTarget} target
   * @returns {number}
   */
  number(target) {
    let number = this.recording.elementNumbers.get(target);
    if (!number) {
      number = this.recording.next('element');
      this.recording.elementNumbers.set(target, number);
    }
    return number;
  }

  /**
   * The number of a target, which is declared in the running action unless that was done before.
   * @param {Target} target
   */
  declaredNumber(target) {
    const number = this.number(target);
    if (!this.recording.declared.has(number)) this.#declareNew(target);
    return number;
  }

  /**
   * Writes the declaration of a target that no parser made, in the running action.
   * @param {Target} target
   */
  #declareNew(target) {
    const number = this.number(target);
    const kind = isElement(target) ? this.declaration(target, false) : 'plain';
    this.markDeclared(target, kind);
    if (isElement(target)) {
      if (this.joinsParsing(target, number, kind)) return;
      this.noteAwaited(target, number, kind);
    }
    const line = `new ${this.page.numberOfDocumentOf(target)} ${number} ${kind}`;
    if (hasItem(this.ofWindow, getPrototypeOf(target))) this.recording.noteBeside(this.number(this.page.document), line);
    else this.recording.note(line);
  }

  /**
   * The kind as a declaration writes it: a frame also declares the document inside it. Called by tree.js.
   * @param {Element} element
   * @param {boolean} isStatic whether the parser made it
   */
  declaration(element, isStatic) {
    const kind = this.page.kinds.of(element, isStatic);
    if (kind !== 'frame') return kind;
    const inner = this.recording.next('document');
    this.frameDocuments.set(element, { number: inner, isUsed: false });
    this.recording.log.name('document', inner, { frame: this.number(element) });
    return `frame ${inner}`;
  }

  /**
   * The running action declares a target: notes this, its kind and its facts. The caller writes the line. Called by tree.js and page/page.js.
   * @param {Target} target
   * @param {string} kind
   */
  markDeclared(target, kind) {
    const number = this.number(target);
    this.makers.set(target, this.recording.running);
    this.recording.declared.add(number);
    this.kinds.set(number, kind);
    this.recording.log.name('element', number, this.facts(target));
  }

  // ---- what the window's load waits for

  /**
   * Whether a parse step can come directly after the run of the script that runs, also if a handler in it runs, as that of the script's `error`. Called by tree.js.
   * @param {Element} element what is to be made in that step
   */
  isBlocking(element) {
    const { recording, page } = this;
    let { running } = recording;
    while (running.insideOf) running = running.insideOf;
    return element.ownerDocument === page.document && running.blocks === page && page.tree.isParsing();
  }

  /**
   * The window's load waits for a script or an image that a script makes while the page is parsed, and the parser for a script that it writes,
   * which `new` cannot say. If the running script is a blocking one, a parse step directly after its run gives exactly that order. Called by sources.js and
   * tree.js.
   * @param {Element} element
   * @param {number} number
   * @param {string} kind
   */
  joinsParsing(element, number, kind) {
    if (!fits(/^(async|image|sync|defer)$/, kind) || !this.isBlocking(element)) return false;
    this.joining.set(number, { kind, element });
    return true;
  }

  /**
   * An element that another event makes than a blocking script: its load comes before the handlers of the window's load (loading.js). Called by sources.js and
   * tree.js.
   * @param {Element} element
   * @param {number} number
   * @param {string} kind
   */
  noteAwaited(element, number, kind) {
    const { running } = this.recording;
    const isOwn = running.awaits === this.page && element.ownerDocument === this.page.document;
    if (isOwn && !this.page.loading.hasBegunLoad && fits(/^(async|image|frame)/, kind)) this.awaited.add(number);
  }

  /**
   * Writes the parse steps of what the last script made, as its run is over. Called at the start of a task, and before further parse steps. Called by tree.js
   * and page/recording/recording.js.
   */
  writeJoining() {
    if (!this.joining.size) return;
    const { joining, page } = this;
    this.joining = new Map();
    joining.forEach(({ kind, element }, number) => {
      const isPlain = kind === 'image' && page.kinds.isLazy(element); // the script has made it lazy meanwhile
      page.tree.writeParsed(element, number, isPlain ? 'plain' : kind);
    });
  }

  /**
   * What an event of a script needs now is declared at once.
   * @param {Target} target
   */
  #declareJoining(target) {
    const number = this.number(target);
    const found = this.joining.get(number);
    if (!found) return;
    this.joining.delete(number);
    const kind = found.kind === 'image' ? 'image' : 'async';
    if (this.kinds.has(number)) this.kinds.set(number, kind);
    this.recording.note(`new ${this.page.number} ${number} ${kind}`);
  }

  // ---- elements that stand for others

  /**
   * A plain element that stands for a target. It is made in an action that may be over: the dispatch at it comes after that. Called by reactions.js,
   * page/events/queued.js and page/tasks/observers.js.
   * @param {Moment|null} moment
   * @param {Target} target
   * @param {string} why
   */
  standInIn(moment, target, why) {
    const standIn = this.recording.next('element');
    this.recording.noteIn(moment, `new ${this.page.numberOfDocumentOf(target)} ${standIn} plain`);
    this.recording.log.name('element', standIn, { standsFor: this.number(target), why });
    return standIn;
  }

  /**
   * A plain element that stands for a target in one dispatch. It is declared beside the target, so that the dispatch comes after the target's
   * maker, and no rule joins it with other dispatches at the target. Called by page/events/dispatches.js, page/events/messages.js and page/events/queued.js.
   * @param {Target} target
   * @param {string} why
   */
  standIn(target, why) {
    const number = this.declaredNumber(target);
    this.#declareJoining(target);
    const standIn = this.recording.next('element');
    this.recording.noteBeside(number, `new ${this.page.numberOfDocumentOf(target)} ${standIn} plain`);
    this.recording.log.name('element', standIn, { standsFor: number, why });
    return standIn;
  }
}

export { Elements };
