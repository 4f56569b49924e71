'use strict';
// Functions that run in the page: which element a selector means. They are sent together, as texts (`IN_PAGE`), so each uses only names of this file that are
// sent too. By CSS, by visible text, by role and accessible name, by XPath; in shadow roots too.
/* eslint-env browser */

/**
 * How a text or a name fits: a part of it (of any case), all of it (of this case, of any case), a regular expression, or a part of this case.
 * @typedef {'part'|'all'|'same'|'pattern'|'has'} Fit
 */
/**
 * A step on the way to an element: inside of the element of the part before it, also in shadow roots. Of a role, `name` is null for any name.
 * @typedef {{by: 'css'|'deep'|'xpath', value: string}|{by: 'text', value: string, fit: Fit}|{by: 'role', value: string, name: string|null, fit: Fit}} Part
 */
/**
 * Alternatives, of which the first one counts that has an element. `frame` has the position of each frame in the one around it.
 * @typedef {{selectors: Part[][], frame: number[]}} Where
 */
/** @typedef {Document|ShadowRoot|Element} Root */

/** @type {{[role: string]: string}} the elements that have a role without an attribute for it */
const ROLES = {
  article: 'article', banner: 'body > header', button: 'button,summary,input:is([type=button],[type=submit],[type=reset],[type=image])', cell: 'td', checkbox: 'input[type=checkbox]',
  columnheader: 'th:not([scope=row])', combobox: 'select:not([multiple]):not([size]),input[list]', complementary: 'aside', contentinfo: 'body > footer', dialog: 'dialog',
  figure: 'figure', form: 'form', group: 'fieldset,details,optgroup', heading: 'h1,h2,h3,h4,h5,h6', img: 'img', link: 'a[href],area[href]', list: 'ul,ol,menu',
  listbox: 'select:is([multiple],[size])', listitem: 'li', main: 'main', navigation: 'nav', option: 'option', paragraph: 'p', progressbar: 'progress', radio: 'input[type=radio]',
  row: 'tr', rowheader: 'th[scope=row]', searchbox: 'input[type=search]:not([list])', separator: 'hr', slider: 'input[type=range]', spinbutton: 'input[type=number]', status: 'output',
  table: 'table', textbox: 'textarea,input:is(:not([type]),[type=text],[type=email],[type=tel],[type=url]):not([list])',
};
/** Elements whose text is no text of the page. */
const NO_TEXT = 'script,style,noscript,template,head,title';

/** @param {string} text */
function plain(text) {
  return text.replace(/\s+/g, ' ').trim();
}

/**
 * All elements inside of a root, also in open shadow roots, in the order of the document.
 * @param {Root} root
 * @returns {Element[]}
 */
function elementsIn(root) {
  const own = 'shadowRoot' in root && root.shadowRoot ? elementsIn(root.shadowRoot) : [];
  return [...own, ...[...root.querySelectorAll('*')].flatMap((one) => (one.shadowRoot ? [one, ...elementsIn(one.shadowRoot)] : [one]))];
}

/**
 * Whether a text is the wanted one: all of it, in any case, or a part of it; or a pattern in it.
 * @param {string} text
 * @param {string} wanted
 * @param {Fit} fit
 */
function fitsText(text, wanted, fit) {
  if (fit === 'pattern') {
    const [, source, flags] = /^\/([^]+)\/(i?)$/.exec(wanted) || [];
    return new RegExp(source, flags).test(text);
  }
  const all = plain(wanted);
  if (fit === 'all') return text === all;
  if (fit === 'has') return text.includes(all);
  return fit === 'same' ? text.toLowerCase() === all.toLowerCase() : text.toLowerCase().includes(all.toLowerCase());
}

/**
 * Whether a user sees an element at all: it has a size, and is not hidden.
 * Called by fields.js.
 * @param {Element} element
 */
function isShown(element) {
  const { width, height } = element.getBoundingClientRect();
  return width >= 1 && height >= 1 && getComputedStyle(element).visibility === 'visible';
}

/**
 * The text of an element with what names pictures in it.
 * @param {Node} node
 * @returns {string}
 */
function textOf(node) {
  if (node.nodeType === 3) return node.nodeValue || '';
  if (node.nodeType !== 1) return '';
  const element = /** @type {Element} */ (node);
  if (element.matches(`${NO_TEXT},select,textarea,datalist`) || element.getAttribute('aria-hidden') === 'true') return '';
  if (element.matches('img,area')) return element.getAttribute('alt') || '';
  if (element.matches('input:is([type=button],[type=submit],[type=reset])')) return /** @type {HTMLInputElement} */ (element).value;
  return [...element.shadowRoot ? element.shadowRoot.childNodes : [], ...element.childNodes].map(textOf).join('');
}

/**
 * The name by which an element is known to who does not see it.
 * @param {Element} element
 */
function nameOf(element) {
  const ids = (element.getAttribute('aria-labelledby') || '').split(/\s+/).filter(Boolean);
  const root = /** @type {Document|ShadowRoot} */ (element.getRootNode());
  const labels = [...ids.map((id) => root.getElementById(id)), ...ids.length ? [] : /** @type {HTMLInputElement} */ (element).labels || []];
  const isField = element.matches('input,select,textarea') && !element.matches('input:is([type=button],[type=submit],[type=reset])');
  const names = [
    ids.length ? '' : element.getAttribute('aria-label') || '', labels.map((one) => (one ? textOf(one) : '')).join(' '), element.getAttribute('alt') || '',
    isField ? '' : textOf(element), element.getAttribute('title') || '', element.getAttribute('placeholder') || '',
  ];
  return names.map(plain).find(Boolean) || '';
}

/**
 * Whether an element has an ARIA role, given or by its tag.
 * @param {Element} element
 * @param {string} role
 */
function hasRole(element, role) {
  const given = (element.getAttribute('role') || '').trim().split(/\s+/)[0];
  return given ? given === role : Object.hasOwn(ROLES, role) && element.matches(ROLES[role]);
}

/**
 * Of elements those with no other one of them inside, the ones that are shown first.
 * @param {Element[]} found
 */
function innermost(found) {
  const outer = new Set();
  for (const one of found) {
    for (let node = one.parentNode; node; node = node.parentNode || /** @type {ShadowRoot} */ (node).host) outer.add(node);
  }
  const inner = found.filter((one) => !outer.has(one));
  return [...inner.filter(isShown), ...inner.filter((one) => !isShown(one))];
}

/**
 * @param {Root} root
 * @param {string} wanted
 * @param {Fit} fit
 */
function byText(root, wanted, fit) {
  return innermost(elementsIn(root).filter((one) => !one.closest(NO_TEXT) && fitsText(plain(textOf(one)), wanted, fit)));
}

/**
 * The elements of a role and an accessible name, first those that a user sees.
 * @param {Root} root
 * @param {Extract<Part, {by: 'role'}>} part
 */
function byRole(root, { value, name, fit }) {
  const found = elementsIn(root).filter((one) => (!value || hasRole(one, value)) && (name === null || fitsText(nameOf(one), name, fit)));
  return value ? [...found.filter(isShown), ...found.filter((one) => !isShown(one))] : innermost(found);
}

/**
 * The elements that an XPath finds.
 * @param {Root} root
 * @param {string} path
 */
function byPath(root, path) {
  const found = (root.ownerDocument || /** @type {Document} */ (root)).evaluate(path, root, null, XPathResult.ORDERED_NODE_SNAPSHOT_TYPE, null);
  return Array.from({ length: found.snapshotLength }, (_, k) => found.snapshotItem(k)).filter((one) => one?.nodeType === 1);
}

/**
 * What one part of a selector finds below a root. CSS that finds nothing is tried in shadow roots.
 * @param {Root} root
 * @param {Part} part
 * @returns {Element[]}
 */
function byPart(root, part) {
  if (part.by === 'text') return byText(root, part.value, part.fit);
  if (part.by === 'role') return byRole(root, part);
  if (part.by === 'xpath') return /** @type {Element[]} */ (byPath(root, part.value));
  const found = part.by === 'css' ? [...root.querySelectorAll(part.value)] : [];
  return found.length ? found : elementsIn(root).filter((one) => one.matches(part.value));
}

/**
 * The elements of the first alternative that has one. Throws if no alternative is valid. Called by fields.js, targets.js and browser/user-steps.js.
 * @param {Where} where
 * @returns {Element[]}
 */
function findAll({ selectors, frame }) {
  /** @type {Window} */
  let view = window;
  for (const position of frame) {
    view = view.frames[position];
    if (!view) return [];
  }
  let fault = null;
  let isValid = false;
  for (const parts of selectors) {
    try {
      /** @type {Root[]} */
      let roots = [view.document];
      for (const part of parts) roots = [...new Set(roots.flatMap((root) => byPart(root, part)))];
      isValid = true;
      if (roots.length) return /** @type {Element[]} */ (roots);
    } catch (error) {
      fault = error;
    }
  }
  if (fault && !isValid) throw fault;
  return [];
}

// ---- of this side

const SENT = [plain, elementsIn, fitsText, isShown, textOf, nameOf, hasRole, innermost, byText, byRole, byPath, byPart, findAll];
/** Declares all of these in the page. */
const IN_PAGE = `const ROLES = ${JSON.stringify(ROLES)}, NO_TEXT = ${JSON.stringify(NO_TEXT)};\n${SENT.join('\n')}`;

/**
 * The text of a call of a function that runs in the page and uses functions of this file. Called by browser/user-steps.js and browser/user.js.
 * @template {unknown[]} P
 * @param {(...parameters: P) => unknown} found
 * @param {P} parameters
 */
function callOf(found, parameters) {
  const words = parameters.map((one) => (one === undefined ? 'undefined' : JSON.stringify(one)));
  return `(() => {\n${IN_PAGE}\nreturn (${found})(${words.join(', ')});\n})()`;
}

/**
 * Called by browser/user.js.
 * @param {string} selector
 * @returns {Where}
 */
const cssWhere = (selector) => ({ selectors: [[{ by: 'css', value: selector }]], frame: [] });

module.exports = { findAll, isShown, callOf, cssWhere };
