'use strict';
// The start tags of a page as the browser's parser reads them, with the places of their attributes and of the texts of scripts.

const { loadParse5 } = require('./debian.js');

const SVG = 'http://www.w3.org/2000/svg';
const MATH = 'http://www.w3.org/1998/Math/MathML';
/** Insertion modes of parse5, which exports no names of them. */
const IN_TEXT = 7;
const IN_SELECT = 15;
const IN_SELECT_IN_TABLE = 16;

/**
 * @typedef {{name: string, value: string, start: number, end: number}} Attribute `name` is in lower case, `value` decoded
 * @typedef {{start: number, end: number}} Range
 * @typedef {object} Tag
 * @property {string} name of the element, as in `localName`
 * @property {string|null} namespace null if the parser makes no element of it
 * @property {number} start
 * @property {number} end
 * @property {boolean} inTemplate
 * @property {Attribute[]} attributes without repeated ones
 * @property {Range|null} text of a script and of a title, from the start tag to the end tag: null if the tag or its end tag is missing
 * @typedef {import('/usr/share/nodejs/parse5').Token.TagToken} TagToken
 * @typedef {import('/usr/share/nodejs/parse5').DefaultTreeAdapterMap} TreeMap
 * @typedef {TreeMap['element']['namespaceURI']} Namespace
 */

/** The elements whose text is wanted: scripts become copies, a title of SVG may contain tags. */
const HAS_TEXT = new Set(['script', 'title']);

/** What comes after the name of an attribute. parse5 reports another end if no blank is after a value. */
const VALUE = /(?:[\t\n\f\r ]*=[\t\n\f\r ]*(?:"[^"]*"|'[^']*'|[^\t\n\f\r >]*))?/y;

/**
 * The attributes of a start tag with their places in the page. parse5 says only where an attribute starts, so its value is read again.
 * @param {TagToken} token
 * @param {string} html
 */
function attributesOf(token, html) {
  return token.attrs.map(({ name, value }) => {
    const { startOffset: start = 0 } = token.location?.attrs?.[name] || {};
    VALUE.lastIndex = start + name.length;
    VALUE.exec(html);
    return { name, value, start, end: VALUE.lastIndex };
  });
}

/** parse5's parser, which notes each start tag. Made once: parse5 is loaded for the first page. */
function makeReader() {
  const { Parser, TokenizerMode, defaultTreeAdapter, html } = loadParse5();

  /**
   * Elements without children. What the parser decides depends on the elements that are open, and on the parents of those, so that the texts and lists of
   * children, of which the search takes quadratic time in some pages, are left out.
   * @type {typeof defaultTreeAdapter}
   */
  const withoutChildren = {
    ...defaultTreeAdapter,
    appendChild(parent, node) { node.parentNode = parent; },
    insertBefore(parent, node) { node.parentNode = parent; },
    detachNode(node) { if ('parentNode' in node) node.parentNode = null; },
    insertText() {},
    insertTextBefore() {},
  };

  /** @extends {Parser<TreeMap>} */
  class Reader extends Parser {
    /** @param {string} text */
    constructor(text) {
      super({ sourceCodeLocationInfo: true, treeAdapter: withoutChildren });
      this.text = text;
      /** @type {Tag[]} */
      this.tags = [];
      /** @type {Map<TagToken, Tag>} */
      this.byToken = new Map();
      /**
       * Tags whose texts are wanted.
       * @type {{tag: Tag, element: TreeMap['element']}[]}
       */
      this.withText = [];
      this.openParagraphs = 0;
      this.skipEmptySearch();
    }

    /** Many start tags close an open `p`. In deeply nested pages the search for it takes quadratic time, and most often there is none. */
    skipEmptySearch() {
      const { openElements } = this;
      const search = openElements.hasInButtonScope.bind(openElements);
      openElements.hasInButtonScope = (id) => (id !== html.TAG_ID.P || this.openParagraphs > 0) && search(id);
    }

    /**
     * @param {TreeMap['parentNode']} node
     * @param {number} id
     * @param {boolean} isTop
     */
    onItemPush(node, id, isTop) {
      super.onItemPush(node, id, isTop);
      if (id === html.TAG_ID.P) this.openParagraphs++;
    }

    /**
     * @param {TreeMap['parentNode']} node
     * @param {boolean} isTop
     */
    onItemPop(node, isTop) {
      super.onItemPop(node, isTop);
      if (node.nodeName === 'p') this.openParagraphs--;
    }

    read() {
      this.tokenizer.write(this.text, true);
      for (const { tag, element } of this.withText) {
        const end = element.sourceCodeLocation?.endTag?.startOffset;
        if (end !== undefined) tag.text = { start: tag.end, end };
      }
      return this.tags;
    }

    /** @param {TagToken} token */
    onStartTag(token) {
      const { startOffset: start = 0, endOffset: end = 0 } = token.location || {};
      /** @type {Tag} */
      const tag = {
        name: token.tagName, namespace: null, start, end, inTemplate: this.openElements.tmplCount > 0, attributes: attributesOf(token, this.text), text: null,
      };
      this.tags.push(tag);
      this.byToken.set(token, tag);
      super.onStartTag(token);
      tag.name = token.tagName; // `image` is `img`, and SVG has names with capitals
      this.correct(tag);
    }

    /**
     * Where parse5 7.1 is older than the HTML Standard: a `select` contains any element, and `noframes` is text in the body too.
     * @param {Tag} tag
     */
    correct({ name, namespace }) {
      /** @type {number} */
      const mode = this.insertionMode;
      if (mode === IN_SELECT || mode === IN_SELECT_IN_TABLE) this._resetInsertionModeForSelect(this.openElements.stackTop);
      if (name !== 'noframes' || namespace !== html.NS.HTML || mode === IN_TEXT) return;
      this.originalInsertionMode = mode;
      this.insertionMode = IN_TEXT;
      this.tokenizer.state = TokenizerMode.RAWTEXT;
    }

    /**
     * @param {TagToken} token
     * @param {Namespace} namespace
     */
    _insertElement(token, namespace) {
      super._insertElement(token, namespace);
      const tag = this.byToken.get(token);
      if (!tag) return;
      const isNew = tag.namespace === null; // a formatting element may be inserted again
      tag.namespace = namespace;
      const element = this.openElements.current;
      if (isNew && HAS_TEXT.has(token.tagName) && 'tagName' in element) this.withText.push({ tag, element });
    }

    /**
     * @param {TagToken} token
     * @param {Namespace} namespace
     */
    _appendElement(token, namespace) {
      super._appendElement(token, namespace);
      const tag = this.byToken.get(token);
      if (tag) tag.namespace = namespace;
    }

    /** @param {TagToken} token */
    _insertTemplate(token) {
      super._insertTemplate(token);
      const tag = this.byToken.get(token);
      if (tag) tag.namespace = html.NS.HTML;
    }

    /** Texts are read where they are in the page. */
    _insertCharacters() {}

    /**
     * Skips a `select` that is open.
     * @param {number} index
     */
    _resetInsertionModeForSelect(index) {
      const { tagIDs } = this.openElements;
      const select = tagIDs[index];
      tagIDs[index] = html.TAG_ID.UNKNOWN;
      this._resetInsertionMode();
      tagIDs[index] = select;
    }
  }

  return Reader;
}

/** @type {ReturnType<typeof makeReader>|null} */
let Reader = null;

/** The page that was read last: it is read before the browser starts, and when it comes. */
const last = { html: '', tags: /** @type {Tag[]} */ ([]) };

/**
 * The start tags of a page, in the order of its text.
 * @param {string} html
 * @returns {readonly Tag[]}
 */
function readTags(html) {
  if (last.html !== html) {
    Reader = Reader || makeReader();
    last.tags = new Reader(html).read();
    last.html = html;
  }
  return last.tags;
}

/**
 * Called by page.js.
 * @param {Tag} tag
 * @param {string} name
 */
const attributeOf = (tag, name) => tag.attributes.find((attribute) => attribute.name === name);

module.exports = { readTags, attributeOf, SVG, MATH };
