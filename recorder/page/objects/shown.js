// Which properties and methods of an element read or change its content or an attribute: `textContent`, `outerHTML`, `type`, `ariaLabel`, `cloneNode`. These
// tables are also docs/recorded.md.

import { hasEnd, lowerCase, sliceOf } from '../core/strings.js';
import { Set, hasOwn } from '../core/taken.js';
import { CLASSES, DATA, STYLE } from './holders.js';

const CONTENT = 'content';
/**
 * The properties that show an attribute or the content, with the names of the variables.
 * @type {{[property: string]: string|null|undefined}}
 */
const SHOWN = {
  textContent: CONTENT, innerHTML: CONTENT, innerText: CONTENT, childNodes: CONTENT, children: CONTENT, firstChild: CONTENT, lastChild: CONTENT,
  firstElementChild: CONTENT, lastElementChild: CONTENT, childElementCount: CONTENT, options: CONTENT, rows: CONTENT,
  className: 'class', hidden: 'hidden', disabled: 'disabled', href: 'href', src: 'src', title: 'title', alt: 'alt', htmlFor: 'for', tabIndex: 'tabindex',
  readOnly: 'readonly', required: 'required', placeholder: 'placeholder', action: 'action', open: 'open', contentEditable: 'contenteditable', dir: 'dir',
  lang: 'lang', __proto__: null,
};
/**
 * Those that only some elements have; at others, a property of this name is code's own.
 * @type {{[property: string]: string|null|undefined}}
 */
const SHOWN_BY_SOME = {
  outerHTML: CONTENT, outerText: CONTENT, text: CONTENT, cells: CONTENT, tBodies: CONTENT, tHead: CONTENT, tFoot: CONTENT, caption: CONTENT, elements: CONTENT,
  accept: 'accept', acceptCharset: 'accept-charset', accessKey: 'accesskey', allow: 'allow', allowFullscreen: 'allowfullscreen', as: 'as',
  autocapitalize: 'autocapitalize', autocomplete: 'autocomplete', autofocus: 'autofocus', autoplay: 'autoplay', charset: 'charset', cite: 'cite', colSpan: 'colspan',
  cols: 'cols', controls: 'controls', crossOrigin: 'crossorigin', dateTime: 'datetime', decoding: 'decoding', default: 'default', defaultMuted: 'muted',
  defaultSelected: 'selected', defer: 'defer', download: 'download', draggable: 'draggable', encoding: 'enctype', enctype: 'enctype', enterKeyHint: 'enterkeyhint',
  fetchPriority: 'fetchpriority', formAction: 'formaction', formEnctype: 'formenctype', formMethod: 'formmethod', formNoValidate: 'formnovalidate',
  formTarget: 'formtarget', headers: 'headers', high: 'high', hreflang: 'hreflang', httpEquiv: 'http-equiv', inert: 'inert', inputMode: 'inputmode',
  integrity: 'integrity', isMap: 'ismap', kind: 'kind', label: 'label', loading: 'loading', loop: 'loop', low: 'low', max: 'max', maxLength: 'maxlength',
  media: 'media', method: 'method', min: 'min', minLength: 'minlength', multiple: 'multiple', name: 'name', noModule: 'nomodule', noValidate: 'novalidate',
  optimum: 'optimum', pattern: 'pattern', ping: 'ping', playsInline: 'playsinline', popover: 'popover', poster: 'poster', preload: 'preload',
  referrerPolicy: 'referrerpolicy', rel: 'rel', reversed: 'reversed', role: 'role', rowSpan: 'rowspan', scope: 'scope', shape: 'shape', size: 'size', sizes: 'sizes',
  slot: 'slot', span: 'span', spellcheck: 'spellcheck', srcdoc: 'srcdoc', srclang: 'srclang', srcset: 'srcset', start: 'start', step: 'step', target: 'target',
  translate: 'translate', type: 'type', useMap: 'usemap', wrap: 'wrap',
  hash: 'href', host: 'href', hostname: 'href', origin: 'href', password: 'href', pathname: 'href', port: 'href', protocol: 'href', search: 'href', username: 'href',
  __proto__: null,
};
/** What begins the names of ARIA properties: `ariaValueNow` shows `aria-valuenow`. */
const ARIA = 'aria';
const OF_ELEMENTS = ['Element', 'Elements'];
/** @type {{[property: string]: number|null|undefined}} */
const PARTS = { style: STYLE, classList: CLASSES, dataset: DATA, __proto__: null };

/** What is read of the elements inside of an element: their contents, or their contents and attributes; OUTER also has its own attributes. */
const TEXTS = 1;
const MARKUP = 2;
const OUTER = 3;
/**
 * The properties and methods that read all that is inside of an element.
 * @type {{[name: string]: number|null|undefined}}
 */
const DEEP = {
  textContent: TEXTS, innerText: TEXTS, outerText: TEXTS, innerHTML: MARKUP, getHTML: MARKUP, cloneNode: MARKUP, outerHTML: OUTER, importNode: OUTER, serializeToString: OUTER, __proto__: null,
};
/** Properties that replace the element if they are set: that changes the content of its parent, which the observer sees. */
const REPLACES = new Set(['outerHTML', 'outerText']);

const CHANGES_CONTENT = new Set(['appendChild', 'insertBefore', 'removeChild', 'replaceChild', 'append', 'prepend', 'replaceChildren']);
const READS_CONTENT = new Set(['hasChildNodes', 'contains', 'getHTML', 'importNode', 'serializeToString']);
const READS_ATTRIBUTE = new Set(['getAttribute', 'hasAttribute', 'getAttributeNode']);
const READS_ATTRIBUTES = new Set(['getAttributeNames', 'hasAttributes', 'cloneNode']);
/** What of the classes of an element reads them. */
const READS_CLASSES = new Set(['value', 'length', 'contains', 'toggle']);
/** Methods of a style whose first argument is a property. */
const READS_STYLE = new Set(['getPropertyValue', 'getPropertyPriority']);

/** Their variables are those of the properties of the same name (fields.js), and lookups (lookups.js). */
const OTHERS = new Set(['id', 'value', 'checked']);
/**
 * Whether other modules record an attribute: its id, its value, a handler. Called by trees.js.
 * @param {string} attribute
 */
const isOther = (attribute) => OTHERS.has(attribute) || sliceOf(attribute, 0, 2) === 'on';

/** @param {string} property */
function attributeOfAria(property) {
  if (property[0] !== 'a' || property[3] !== 'a') return null; // most names
  if (sliceOf(property, 0, ARIA.length) !== ARIA || property.length === ARIA.length) return null;
  return hasEnd(property, OF_ELEMENTS[0]) || hasEnd(property, OF_ELEMENTS[1]) ? null : `${ARIA}-${lowerCase(sliceOf(property, ARIA.length))}`;
}

/**
 * The variable of an element that a property shows; null if it shows none. Called by trees.js.
 * @param {object} node
 * @param {string} property
 * @returns {string|null}
 */
function shownBy(node, property) {
  const shown = SHOWN[property];
  if (shown) return shown;
  const ofSome = SHOWN_BY_SOME[property] || attributeOfAria(property);
  return ofSome && property in node && !hasOwn(node, property) ? ofSome : null;
}

export {
  CONTENT, DEEP, MARKUP, OUTER, PARTS, REPLACES, CHANGES_CONTENT, READS_CONTENT, READS_ATTRIBUTE, READS_ATTRIBUTES, READS_CLASSES, READS_STYLE, isOther, shownBy,
};
