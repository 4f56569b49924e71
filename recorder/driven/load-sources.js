'use strict';
// The texts of one page load, in a browser that loads many. A script that came before with the same text is instrumented already. The numbers of places are
// those of the browser, as a script in its memory is that of an earlier load.

const { COMMON_NAMES } = require('../instrument/ahead.js');
const { EditedText } = require('../instrument/edits.js');
const { Sources } = require('../texts/sources.js');

/** What all loads of a browser share. Made by browser-recorder.js, as its `shared`. */
class SharedSources extends Sources {
  /**
   * @param {'globals'|'objects'} depth
   * @param {boolean} keepsAll
   */
  constructor(depth, keepsAll) {
    super(depth, keepsAll);
    this.builtins.set(COMMON_NAMES, false); // until the names of the browser are read from a page
  }
}

/** Made by driven/load.js for each load. */
class LoadSources extends Sources {
  /** @param {SharedSources} shared */
  constructor(shared) {
    super(shared.depth, shared.keepsAll);
    this.shared = shared;
    this.places = shared.places;
    this.modules = shared.modules;
    this.builtins = shared.builtins;
    this.handlerNames = shared.handlerNames;
  }

  /**
   * The instrumented copy of a script: the one of an earlier load, if its text is equal.
   * @param {string} address
   * @param {string} code
   */
  rewriteScript(address, code) {
    const known = this.shared.byAddress.get(address);
    if (known && known.edited && known.text === code) this.byAddress.set(address, known);
    const text = super.rewriteScript(address, code);
    const source = this.byAddress.get(address);
    if (source) this.shared.byAddress.set(address, source);
    return text;
  }

  /**
   * A script in the browser's memory comes without a response.
   * @param {string} address
   */
  copyAt(address) {
    const known = this.shared.byAddress.get(address);
    if (known && !this.byAddress.has(address)) this.byAddress.set(address, known);
    return super.copyAt(address);
  }

  /**
   * Takes as a page's copy the one that it has with these insertions, until it has its own. Called by load-steering.js.
   * @param {string} address
   * @param {import('../browser/responses/paused.js').Insertion[]} insertions
   */
  tryInsertions(address, insertions) {
    const source = this.byAddress.get(address);
    if (source) this.copies.set(source, new EditedText(source.text, [...insertions, ...source.edits || []], 'page'));
  }
}

module.exports = { SharedSources, LoadSources };
