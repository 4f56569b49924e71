// What an element loads by a source that is set later than the element is made, and the further pages that a frame shows.

import { fits } from '../core/strings.js';
import { WeakMap, apply } from '../core/taken.js';
import { HTML_NAMESPACE, documentOf } from '../core/things.js';

/** Elements that can show a page of its own. */
const SHOWS_PAGE = /^(i?frame|object|embed)$/;
/** Elements that load something only if they are of a kind. */
const BY_KIND = /^(link|input|image)$/;

/**
 * An element that stands for another one in its next load: its number, and that of the page in it, if it is a frame and no page has it yet. If the
 * element had no source before, it stands for it in each further load, too. `setter` has set the source, if that is known.
 * @typedef {{number: number, inner: number, setter?: import('../types').TraceEvent, isPassing?: boolean, isFirst?: boolean, isOver?: boolean}} Load
 */

/** One for each document: `page.sources`. */
class Sources {
  /** @param {import('../types').Page} page */
  constructor(page) {
    this.page = page;
    this.recording = page.recording;
    this.elements = page.elements;
    /** @type {WeakMap<Element, Load>} */
    this.loads = new WeakMap();
  }

  /**
   * A script sets what an element loads: the load event comes after this, whoever made the element. An element that is made here stands for it. Called by
   * attributes.js.
   * @param {Element} element
   */
  noteSource(element) {
    const { recording, elements } = this;
    const mayStillRun = this.#mayStillRun(element);
    this.page.insertions.noteSource(element);
    if (!recording.isRunning() || !recording.declared.has(elements.number(element))) return;
    if (elements.makers.get(element) === recording.running) return;
    const isScript = element.localName === 'script';
    if (isScript ? !mayStillRun : fits(BY_KIND, element.localName) && this.page.kinds.of(element, false) === 'plain') return;
    const isFrame = fits(SHOWS_PAGE, element.localName);
    const isFirst = fits(/^(img|input)$/, element.localName) && !this.#hasSource(element);
    this.standIn(element, isScript ? 'async' : isFrame ? 'frame' : 'image', 'its source was set').isFirst = isFirst;
  }

  /**
   * Whether an image can have been loaded.
   * @param {Element} element
   */
  #hasSource(element) {
    const { elements } = this;
    return elements.has(element, 'src') || elements.has(element, 'srcset') || element.parentElement?.localName === 'picture';
  }

  /**
   * An element that stands for another one in its next load, and in its run if it is a script: it is made in the running action. Called by
   * page/scripts/insertions.js.
   * @param {Element} element
   * @param {'async'|'frame'|'image'} kind
   * @param {string} why
   * @returns {Load}
   */
  standIn(element, kind, why) {
    const { recording, elements } = this;
    const number = recording.next('element');
    const inner = kind === 'frame' ? recording.next('document') : 0;
    /** @type {Load} */
    const load = { number, inner, setter: recording.isRunning() ? recording.running : undefined };
    this.loads.set(element, load);
    if (kind === 'async') elements.kinds.set(number, kind);
    recording.log.name('element', number, { standsFor: elements.number(element), why });
    if (inner) recording.log.name('document', inner, { frame: number });
    this.#declare(element, number, inner ? `frame ${inner}` : kind);
    return load;
  }

  /**
   * Declares what an element loads from now on, as an element of its own.
   * @param {Element} element
   * @param {number} number
   * @param {string} kind
   */
  #declare(element, number, kind) {
    const { elements, page } = this;
    if (!page.kinds.isLazy(element)) {
      if (elements.joinsParsing(element, number, kind)) return;
      elements.noteAwaited(element, number, kind);
    }
    this.recording.note(`new ${page.numberOfDocumentOf(element)} ${number} ${kind}`);
  }

  /**
   * A script that was empty runs once it gets a source; so does a data block with a source that has become a script, and gets another one.
   * @param {Element} element
   */
  #mayStillRun(element) {
    const { elements, page: { insertions, kinds, scripts } } = this;
    if (element.localName !== 'script' || scripts.hasRun.has(elements.number(element))) return false;
    if (!elements.has(element, 'src')) return true;
    const wasData = elements.kinds.get(elements.number(element)) === 'plain' && elements.attribute(element, 'src') !== '';
    return wasData && !insertions.started.has(element) && kinds.scriptType(element) !== null;
  }

  /**
   * Whether a frame has no page but the empty one, which loads while the parser inserts the frame. Called by loading.js.
   * @param {Element} element
   */
  isEmptyFrame(element) {
    const { elements } = this;
    return element.localName === 'iframe' && !elements.has(element, 'srcdoc') && fits(/^\s*(about:blank\s*)?$/i, elements.attribute(element, 'src') || '');
  }

  /**
   * What an element loads now. Called by attributes.js.
   * @param {Element} element
   */
  nameSource(element) {
    const { recording, elements } = this;
    if (recording.isOver || !recording.elementNumbers.has(element)) return;
    recording.log.name('element', elements.number(element), { loads: elements.addressOf(element) });
  }

  // ---- pages in frames

  /**
   * The document number for a page that a frame shows now; the empty page before its first one is passing. Called by page/frames.js.
   * @param {Element} frame
   * @param {boolean} isPassing
   * @returns {number}
   */
  numberOfInner(frame, isPassing) {
    const load = this.loads.get(frame);
    const number = this.#numberOfPage(frame, load, isPassing);
    this.page.loading.inOrder.beginsPage(frame, load, number);
    return number;
  }

  /**
   * The number of the page that a frame shows: the one of the running load, or of the frame's first, empty page, or a new one.
   * @param {Element} frame
   * @param {Load|undefined} load
   * @param {boolean} isPassing
   */
  #numberOfPage(frame, load, isPassing) {
    const first = this.elements.frameDocuments.get(frame); // a lazy frame has none
    if (load && load.inner) {
      const { inner } = load;
      load.inner = 0;
      return inner;
    }
    if (first && !first.isUsed && !isPassing) {
      first.isUsed = true;
      if (load && load.isPassing) this.loads.delete(frame); // the empty page before it has had no load event
      return first.number;
    }
    return this.#furtherDocument(frame, isPassing);
  }

  /**
   * A further page in a frame, with no known cause: a frame element that stands for it is declared beside the frame's own.
   * @param {Element} frame
   * @param {boolean} isPassing
   */
  #furtherDocument(frame, isPassing) {
    const { recording } = this;
    const number = this.elements.declaredNumber(frame);
    const standIn = recording.next('element');
    const inner = recording.next('document');
    recording.noteBeside(number, `new ${this.page.number} ${standIn} frame ${inner}`);
    recording.log.name('element', standIn, { standsFor: number, why: 'a further page in the frame' });
    recording.log.name('document', inner, { frame: standIn });
    this.loads.set(frame, { number: standIn, inner: 0, isPassing });
    return inner;
  }

  /**
   * A frame has loaded a page: that of another origin, also of a sandboxed frame, is not recorded. Called by loading.js.
   * @param {Element} element
   */
  missFrame(element) {
    if (element.localName !== 'iframe' || element.namespaceURI !== HTML_NAMESPACE) return;
    const window = apply(this.page.natives.contentWindow, /** @type {HTMLIFrameElement} */ (element), []);
    if (window && !documentOf(/** @type {import('../types').PageWindow} */ (window))) this.recording.log.miss('frames of another origin');
  }
}

export { Sources };
