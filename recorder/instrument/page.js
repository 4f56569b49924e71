'use strict';
// The copy of the HTML of a page that the browser gets: its scripts, handler attributes and `javascript:` addresses are instrumented, its content policies
// allow that, and `integrity`, which would refuse it, is dropped. Everything else in its text stays as it is.

const { policyWithMarks, hasTypes, holdAt } = require('../browser/content-policy.js');
const { codeOfAddress, scriptType } = require('../common/html.js');
const { encodeValue } = require('./attribute-text.js');
const { EditedText } = require('./edits.js');
const { withoutIntegrity } = require('./import-map.js');
const { keptMarks } = require('./kept-marks.js');
const { SvgText, canInsert } = require('./svg-text.js');
const { readTags, attributeOf, SVG, MATH } = require('./tags.js');

/**
 * @typedef {import('./tags.js').Tag} Tag
 * @typedef {import('./tags.js').Attribute} Attribute
 * @typedef {import('./tags.js').Range} Range
 * @typedef {import('./syntax/types').Edit} Edit
 * @typedef {import('./syntax/types').Fault} Fault
 * @typedef {import('./syntax/types').Options} InstrumentOptions
 * @typedef {(address: string, html: string) => Edit[]} Insertions what a replay puts into a page
 * @typedef {Edit & {again?: (insertions: Insertions) => string}} PageEdit `again` makes what is inserted in a further run
 */

/**
 * @typedef {object} PageSources
 * @property {(address: string, html: string, insertions: Insertions) => string} rewritePage
 * @property {Map<string, string>} markedTexts
 * @property {ReadonlySet<string>} handlerNames the event handler attributes that the browser has
 */

/**
 * Where the places of a page are noted: texts/sources.js.
 * @typedef {object} PageSource
 * @property {string} address
 * @property {PageSources} sources
 * @property {(kind: 'script'|'module'|'handler'|'address', offset: number, more?: {wholeAtStart?: boolean, isFile?: boolean}) => InstrumentOptions} options those of `instrument`
 * @property {(name: string, known: {id?: string, source?: string}, offset: number) => void} noteTag
 * @property {(own: string, marked: string) => void} noteMarked
 * @property {(what: string) => void} drop
 * @property {(what: 'scripts'|'handler attributes'|'javascript: addresses', fault: Fault, start: number, offset?: number) => void} miss
 * @property {(what: string) => void} leave
 */

/**
 * The elements whose attribute may have a `javascript:` address that runs.
 * @type {Record<string, string[]>}
 */
const ADDRESSES = {
  'href': ['a', 'area'], 'xlink:href': ['a'], 'src': ['iframe', 'frame'], 'action': ['form'], 'formaction': ['button', 'input'],
};
/** Characters of an address that tell elements apart; page/document/elements.js takes as many. */
const LONGEST_SOURCE = 200;

/** @param {Tag} tag */
const typeOf = (tag) => scriptType(attributeOf(tag, 'type')?.value ?? null, tag.namespace === SVG ? null : attributeOf(tag, 'language')?.value ?? null);

/**
 * 'script', 'module', or null for a data block. Called by ahead.js.
 * @param {Tag} tag
 */
function kindOfScript(tag) {
  const type = typeOf(tag);
  return type === 'classic' ? 'script' : type === 'module' ? type : null;
}

/**
 * The attribute that names the file of a script. Called by ahead.js.
 * @param {Tag} tag
 */
const sourceOf = (tag) => (tag.namespace === SVG ? attributeOf(tag, 'href') || attributeOf(tag, 'xlink:href') : attributeOf(tag, 'src'));

/** @param {Tag} tag */
const isStyle = (tag) => tag.name === 'link' && /(^|\s)stylesheet(\s|$)/i.test(attributeOf(tag, 'rel')?.value || '');

/**
 * Instrumenter options for code whose places are not those of the page.
 * @param {InstrumentOptions} options
 * @param {SvgText} text
 * @param {number} start of the code in the page
 * @returns {InstrumentOptions}
 */
function inPage(options, text, start) {
  const place = (/** @type {number} */ inCode) => text.placeInPage(inCode) - start;
  return {
    ...options,
    site: (/** @type {number} */ offset, /** @type {Parameters<InstrumentOptions['site']>[1]} */ about) => options.site(place(offset), about?.object ? { ...about, object: [place(about.object[0]), place(about.object[1])] } : about),
    named: (/** @type {number} */ from, /** @type {number} */ to, /** @type {string} */ name) => options.named?.(place(from), place(to), name),
    library: (/** @type {number} */ from, /** @type {number} */ to, /** @type {string} */ name) => options.library?.(place(from), place(to), name),
  };
}

/** Made by `Sources` for the text of each page, and of each `srcdoc`. */
class PageRewriter {
  /**
   * @param {string} html
   * @param {PageSource} source
   */
  constructor(html, source) {
    this.html = html;
    this.source = source;
    /** @type {PageEdit[]} */
    this.edits = [];
    this.frames = 0;
  }

  rewrite() {
    const tags = readTags(this.html);
    for (const tag of tags) if (tag.name === 'script' && tag.text && tag.namespace !== MATH && !sourceOf(tag)) this.rewriteScript(tag, tag.text); // first: attributes use what they declare
    for (const tag of tags) this.rewriteTag(tag);
    for (const tag of tags) if (tag.name === 'meta') this.rewritePolicy(tag); // last: it allows all that is instrumented
    return this.edits;
  }

  /**
   * The copy of a start tag. Its id and source tell its element apart from others in the list.
   * @param {Tag} tag
   */
  rewriteTag(tag) {
    for (const attribute of tag.attributes) this.rewriteAttribute(tag, attribute);
    if (!tag.inTemplate) this.source.noteTag(tag.name, { id: attributeOf(tag, 'id')?.value, source: attributeOf(tag, 'src')?.value.slice(0, LONGEST_SOURCE) }, tag.start);
  }

  /**
   * What an attribute becomes in the copy: no `integrity`, as the script has another text; marks in handlers, `javascript:` addresses and `srcdoc`.
   * @param {Tag} tag
   * @param {Attribute} attribute
   */
  rewriteAttribute(tag, attribute) {
    const { name } = attribute;
    if (name === 'integrity' && !isStyle(tag)) {
      this.edits.push({ start: attribute.start, end: attribute.end, insert: '' });
      this.source.drop('integrity attributes');
    } else if (name === 'srcdoc' && tag.name === 'iframe') this.rewriteSrcdoc(attribute);
    else if (this.source.sources.handlerNames.has(name)) this.rewriteHandler(attribute);
    else if (Object.hasOwn(ADDRESSES, name) && ADDRESSES[name].includes(tag.name)) this.rewriteAddress(attribute);
  }

  /**
   * The page inside a frame may be in an attribute. Its places need an address of its own; a replay does not tell such pages apart.
   * @param {Attribute} attribute
   */
  rewriteSrcdoc(attribute) {
    const first = `${this.source.address} (srcdoc)`;
    const own = this.frames++ ? first.replace(/\)$/, ` ${this.frames})`) : first;
    const text = (/** @type {Insertions} */ insertions) => {
      const inside = (/** @type {string} */ address, /** @type {string} */ html) => insertions(address === own ? first : address, html);
      return this.spell(attribute, this.source.sources.rewritePage(own, attribute.value, inside));
    };
    this.edits.push({ start: attribute.start, end: attribute.end, insert: text(() => []), again: text });
  }

  /**
   * Changes the policy of a `<meta http-equiv=Content-Security-Policy>` so that it allows the instrumented texts of what it allows.
   * @param {Tag} tag
   */
  rewritePolicy(tag) {
    const content = attributeOf(tag, 'content');
    if (!content || !/^content-security-policy$/i.test(attributeOf(tag, 'http-equiv')?.value.trim() || '')) return;
    const { address, sources } = this.source;
    if (hasTypes(content.value)) this.source.drop('trusted types of content policies');
    const text = (/** @type {Insertions} */ insertions) => {
      const hold = insertions(address, this.html).length ? holdAt(address) : null;
      return this.spell(content, policyWithMarks(content.value, sources.markedTexts, hold));
    };
    this.edits.push({ start: content.start, end: content.end, insert: '', again: text });
  }

  /**
   * Instruments the text of a script in the page.
   * @param {Tag} tag
   * @param {Range} range
   */
  rewriteScript(tag, { start, end }) {
    const type = typeOf(tag);
    const code = this.html.slice(start, end);
    if (!code) return;
    if (type === 'importmap') this.rewriteImportMap(code, start);
    else if (!type) return;
    else if (tag.namespace === SVG) this.rewriteMarkup(new SvgText(this.html, start, end), type, start);
    else {
      const edits = this.editsOf(code, this.source.options(type === 'module' ? type : 'script', start), start);
      this.edits.push(...edits.map((edit) => ({ ...edit, start: edit.start + start, end: edit.end + start })));
    }
  }

  /**
   * A script in SVG.
   * @param {SvgText} text
   * @param {'classic'|'module'} type
   * @param {number} start
   */
  rewriteMarkup(text, type, start) {
    const options = this.source.options(type === 'module' ? type : 'script', start);
    const edits = text.isText ? this.editsOf(text.code, inPage(options, text, start), start) : [];
    if (text.isText && edits.every((edit) => canInsert(text, edit))) this.edits.push(...edits.map((edit) => text.editOfPage(edit)));
    else this.source.leave('SVG scripts with other elements inside');
  }

  /**
   * The edits of a script in the page. Code that cannot be parsed stays as it is, and is counted.
   * @param {string} code
   * @param {InstrumentOptions} options
   * @param {number} start where the code is in the page
   * @returns {Edit[]}
   */
  editsOf(code, options, start) {
    const { edits, fault } = keptMarks.instrument(code, options);
    if (fault) this.source.miss('scripts', fault, start);
    else this.source.noteMarked(code, new EditedText(code, edits).text);
    return edits || [];
  }

  /**
   * An import map without `integrity`, as modules have another text.
   * @param {string} code
   * @param {number} start
   */
  rewriteImportMap(code, start) {
    const edits = withoutIntegrity(code);
    if (!edits.length) return;
    this.source.drop('integrity of import maps');
    this.source.noteMarked(code, new EditedText(code, edits).text);
    for (const edit of edits) this.edits.push({ ...edit, start: edit.start + start, end: edit.end + start });
  }

  /**
   * The instrumented text of code in an attribute, or null if the code has to stay.
   * @param {string} code
   * @param {'handler'|'address'} kind
   * @param {Attribute} attribute
   */
  markValue(code, kind, attribute) {
    const { edits, fault } = keptMarks.instrument(code, { ...this.source.options(kind, attribute.start, { wholeAtStart: true }), type: attribute.name.slice(2) });
    if (edits) return new EditedText(code, edits).text;
    this.source.miss(kind === 'handler' ? 'handler attributes' : 'javascript: addresses', fault, attribute.start, attribute.start);
    return null;
  }

  /** @param {Attribute} attribute */
  rewriteHandler(attribute) {
    const code = attribute.value;
    const text = code.trim() ? this.markValue(code, 'handler', attribute) : null;
    if (text === null) return;
    this.source.noteMarked(code, text);
    this.replace(attribute, text);
  }

  /**
   * A `javascript:` address, whose code is percent-encoded.
   * @param {Attribute} attribute
   */
  rewriteAddress(attribute) {
    const code = codeOfAddress(attribute.value, decodeURIComponent);
    if (code === undefined) this.source.leave('javascript: addresses that are not UTF-8');
    const text = code ? this.markValue(code, 'address', attribute) : null;
    if (text !== null) this.replace(attribute, `javascript:${encodeURIComponent(text)}`);
  }

  /**
   * Replaces the value of an attribute.
   * @param {Attribute} attribute
   * @param {string} text
   */
  replace(attribute, text) {
    this.edits.push({ start: attribute.start, end: attribute.end, insert: this.spell(attribute, text) });
  }

  /**
   * An attribute with another value, in the quotes of the original.
   * @param {Attribute} attribute
   * @param {string} text
   */
  spell({ name, start, end }, text) {
    return `${this.html.slice(start, start + name.length)}=${encodeValue(text, this.html.slice(start, end))}`;
  }
}

module.exports = { PageRewriter, kindOfScript, sourceOf };
