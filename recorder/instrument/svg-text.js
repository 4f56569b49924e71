'use strict';
// The code of a script in SVG. The browser reads it as markup, so that it may contain character references (`a &lt; b`) and CDATA sections, which are
// unescaped.

const { encodeText } = require('./attribute-text.js');
const { loadEntities } = require('./debian.js');

/** A CDATA section, or what comes before one. The last section may have no end. */
const PIECE = /<!\[CDATA\[([^]*?)(?:\]\]>|$)|(?:(?!<!\[CDATA\[)[^])+/g;
/** What begins with a reference, or has none. */
const SEGMENT = /&[^&]*|[^&]+/g;

/**
 * How many characters two texts have in common at their ends.
 * @param {string} a
 * @param {string} b
 */
function commonEnd(a, b) {
  let length = 0;
  while (length < Math.min(a.length, b.length) && a[a.length - 1 - length] === b[b.length - 1 - length]) length++;
  return length;
}

/** The code between two tags in SVG, and the way back from its places to those of the page. Made by page.js. */
class SvgText {
  /**
   * @param {string} html
   * @param {number} start
   * @param {number} end
   */
  constructor(html, start, end) {
    this.code = '';
    /**
     * Where a piece begins in the code and in the page, in both the same from there on.
     * @type {{inCode: number, inPage: number, isMarkup: boolean}[]}
     */
    this.pieces = [];
    /** Whether nothing but text is between the tags: what other elements contain is no part of the code. */
    this.isText = true;
    for (const { 0: piece, 1: section, index = 0 } of html.slice(start, end).matchAll(PIECE)) {
      if (section === undefined) this.addMarkup(piece, start + index);
      else this.add(section, start + index + '<![CDATA['.length, false);
    }
  }

  /**
   * Adds a piece of the code.
   * @param {string} text
   * @param {number} inPage
   * @param {boolean} isMarkup
   */
  add(text, inPage, isMarkup) {
    this.pieces.push({ inCode: this.code.length, inPage, isMarkup });
    this.code += text;
  }

  /**
   * Adds markup: where a character reference is decoded, the text is longer or shorter than the page.
   * @param {string} piece
   * @param {number} inPage
   */
  addMarkup(piece, inPage) {
    if (/<[a-z/!?]/i.test(piece)) this.isText = false;
    const { decodeHTML } = loadEntities();
    for (const { 0: segment, index = 0 } of piece.matchAll(SEGMENT)) {
      const decoded = decodeHTML(segment);
      const tail = decoded === segment ? decoded.length : commonEnd(segment.slice(1), decoded.slice(1));
      if (tail < decoded.length) this.add(decoded.slice(0, decoded.length - tail), inPage + index, true);
      this.add(decoded.slice(decoded.length - tail), inPage + index + segment.length - tail, true);
    }
  }

  /**
   * The piece of the source in which a place of the script is: by halves, as pieces are in order.
   * @param {number} place
   */
  pieceAt(place) {
    let [low, high] = [0, this.pieces.length - 1];
    while (low < high) {
      const middle = (low + high + 1) >> 1;
      if (this.pieces[middle].inCode <= place) low = middle;
      else high = middle - 1;
    }
    return this.pieces[low];
  }

  /**
   * The offset in the page for an offset in the code. Called by page.js.
   * @param {number} place
   */
  placeInPage(place) {
    const { inCode, inPage } = this.pieceAt(place);
    return inPage + place - inCode;
  }

  /**
   * The edit of the page for one of the code. Called by page.js.
   * @param {{start: number, end: number, insert: string}} edit
   */
  editOfPage({ start, end, insert }) {
    const { isMarkup } = this.pieceAt(start);
    return { start: this.placeInPage(start), end: this.placeInPage(end), insert: isMarkup ? encodeText(insert) : insert };
  }
}

/**
 * Whether an edit can be made in the page: what is inserted into a CDATA section cannot contain its end. Called by page.js.
 * @param {SvgText} text
 * @param {{start: number, insert: string}} edit
 */
const canInsert = (text, { start, insert }) => text.pieceAt(start).isMarkup || !insert.includes(']]>');

module.exports = { SvgText, canInsert };
