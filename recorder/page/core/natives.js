// The browser's own functions, taken before any script of the page can change them. Getters and methods of the DOM, as `addEventListener`, `querySelector`.

import { Object, Symbol, apply, getOwnPropertyDescriptor } from './taken.js';
import { takeFirst } from './lists.js';

/**
 * Called by page/main.js.
 * @param {import('../types').PageWindow} window
 */
function takeNatives(window) {
  const { CharacterData, Document, DocumentFragment, Element, Event, EventTarget, HTMLInputElement, HTMLTextAreaElement, Node, Promise, Selection } = window;
  return {
    addEventListener: EventTarget.prototype.addEventListener,
    dispatchEvent: EventTarget.prototype.dispatchEvent,
    composedPath: Event.prototype.composedPath,
    bubbles: getterOf(Event.prototype, 'bubbles'),
    readyState: getterOf(Document.prototype, 'readyState'),
    initEvent: Event.prototype.initEvent,
    getElementById: Document.prototype.getElementById,
    querySelectorAll: Element.prototype.querySelectorAll,
    querySelectorAllOfFragment: DocumentFragment.prototype.querySelectorAll,
    getRootNode: Node.prototype.getRootNode,
    shadowRoot: getterOf(Element.prototype, 'shadowRoot'),
    assignedNodes: window.HTMLSlotElement.prototype.assignedNodes,
    getAttribute: Element.prototype.getAttribute,
    setAttribute: Element.prototype.setAttribute,
    hasAttribute: Element.prototype.hasAttribute,
    nameOfAttribute: getterOf(window.Attr.prototype, 'name'),
    getAttributeNames: Element.prototype.getAttributeNames,
    getElementsByTagName: Element.prototype.getElementsByTagName,
    remove: Element.prototype.remove,
    unscopables: Object.keys(/** @type {any} */ (Element.prototype)[Symbol.unscopables]),
    contains: Node.prototype.contains,
    matches: Element.prototype.matches,
    getAnimations: Document.prototype.getAnimations,
    checkVisibility: /** @type {Element & {checkVisibility(options?: object): boolean}} */ (Element.prototype).checkVisibility,
    getBoundingClientRect: Element.prototype.getBoundingClientRect,
    elementFromPoint: Document.prototype.elementFromPoint,
    getComputedStyle: window.getComputedStyle.bind(window),
    getPropertyValue: window.CSSStyleDeclaration.prototype.getPropertyValue,
    computedStyleMap: /** @type {Element & {computedStyleMap(): object}} */ (Element.prototype).computedStyleMap,
    styleOf: window.StylePropertyMapReadOnly && window.StylePropertyMapReadOnly.prototype.get,
    styleText: window.CSSStyleValue && window.CSSStyleValue.prototype.toString,
    endsOfSelection: [getterOf(Selection.prototype, 'anchorNode'), getterOf(Selection.prototype, 'anchorOffset'), getterOf(Selection.prototype, 'focusNode'), getterOf(Selection.prototype, 'focusOffset')],
    scrollLeft: getterOf(Element.prototype, 'scrollLeft'),
    scrollTop: getterOf(Element.prototype, 'scrollTop'),
    selected: { HTMLInputElement: selectionGetters(HTMLInputElement.prototype), HTMLTextAreaElement: selectionGetters(HTMLTextAreaElement.prototype) },
    nodeType: getterOf(Node.prototype, 'nodeType'),
    compareDocumentPosition: Node.prototype.compareDocumentPosition,
    parentNode: getterOf(Node.prototype, 'parentNode'),
    ownerDocument: getterOf(Node.prototype, 'ownerDocument'),
    localName: getterOf(window.Element.prototype, 'localName'),
    isConnected: getterOf(Node.prototype, 'isConnected'),
    contentWindow: getterOf(window.HTMLIFrameElement.prototype, 'contentWindow'),
    source: getterOf(window.MessageEvent.prototype, 'source'),
    firstChild: getterOf(Node.prototype, 'firstChild'),
    data: { get: getterOf(CharacterData.prototype, 'data'), set: setterOf(CharacterData.prototype, 'data') },
    MutationObserver: window.MutationObserver,
    promise: Promise,
    then: Promise.prototype.then,
    queueMicrotask: window.queueMicrotask.bind(window),
    setTimeout: window.setTimeout.bind(window),
    localStorage: getterOf(window, 'localStorage'),
    sessionStorage: getterOf(window, 'sessionStorage'),
    navigation: window.Navigation && navigationGetters(window),
    aborted: getterOf(window.AbortSignal.prototype, 'aborted'),
    transaction: window.IDBDatabase && window.IDBDatabase.prototype.transaction,
    count: window.IDBObjectStore && window.IDBObjectStore.prototype.count,
    requestAnimationFrame: window.requestAnimationFrame.bind(window),
    postTask: taskPoster(window),
    postBeforeRejections: taskPosterOfDocument(window),
    URL: window.URL,
    now: window.performance.now.bind(window.performance),
  };
}

/**
 * The getter of a property of the browser. Called by page/accesses/forms.js.
 * @template {object} T
 * @template {keyof T & string} K
 * @param {T} owner
 * @param {K} name
 * @returns {(this: T) => T[K]}
 */
function getterOf(owner, name) {
  return /** @type {(this: T) => T[K]} */ (getOwnPropertyDescriptor(owner, name)?.get);
}

/**
 * @template {object} T
 * @template {keyof T & string} K
 * @param {T} owner
 * @param {K} name
 * @returns {(this: T, value: T[K]) => void}
 */
function setterOf(owner, name) {
  return /** @type {(this: T, value: T[K]) => void} */ (getOwnPropertyDescriptor(owner, name)?.set);
}

/** @param {import('../types').PageWindow} window */
const navigationGetters = ({ Navigation, NavigationHistoryEntry }) => ({
  entries: Navigation.prototype.entries,
  currentEntry: getterOf(Navigation.prototype, 'currentEntry'),
  key: getterOf(NavigationHistoryEntry.prototype, 'key'),
});

/** @param {HTMLInputElement|HTMLTextAreaElement} owner */
const selectionGetters = (owner) => ({ start: getterOf(owner, 'selectionStart'), end: getterOf(owner, 'selectionEnd') });

/**
 * Calls functions in tasks of their own, in the order in which they are passed.
 * @param {import('../types').PageWindow} window
 * @returns {(call: () => void) => void}
 */
function taskPoster(window) {
  const { port1, port2 } = new window.MessageChannel();
  const { postMessage } = port2;
  /** @type {(() => void)[]} */
  const waiting = [];
  port1.onmessage = () => {
    const first = takeFirst(waiting);
    if (first) first();
  };
  return (call) => {
    waiting[waiting.length] = call;
    apply(postMessage, port2, [null]);
  };
}

/**
 * The same in the queue in which the browser puts the news of rejections that nobody handles, so in one order with them: that of a `details` element
 * outside the document, which opens. V8 reports this order only to its embedder.
 * @param {import('../types').PageWindow} window
 * @returns {(call: () => void) => void}
 */
function taskPosterOfDocument(window) {
  const { createElement } = window.Document.prototype;
  const { setAttribute } = window.Element.prototype;
  const { addEventListener } = window.EventTarget.prototype;
  return (call) => {
    const details = apply(createElement, window.document, ['details']);
    apply(addEventListener, details, ['toggle', call]);
    apply(setAttribute, details, ['open', '']);
  };
}

export { getterOf, takeNatives };
