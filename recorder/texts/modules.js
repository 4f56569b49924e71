'use strict';
// The numbers of the page's modules: of those that are files one for each address, of those inside a page one for each script. ES modules, by their URLs.

const { FIRST_MODULE } = require('../common/numbers.js');

/** A name that says an address: one that an import map resolves does not. */
const SAYS_ADDRESS = /^(\.{0,2}\/|[a-z][a-z\d+.-]*:)/i;

/** Made by sources.js. */
class Modules {
  constructor() {
    /** @type {string[]} */
    this.addresses = [];
    /** @type {Map<string, number>} the numbers of the modules that are files */
    this.numbers = new Map();
  }

  /**
   * The number of a new module. In a page several modules have one address. Called by source.js.
   * @param {string} address
   */
  add(address) {
    return FIRST_MODULE + this.addresses.push(address) - 1;
  }

  /**
   * The number of the module that is the file at an address. Called by source.js.
   * @param {string} address
   */
  at(address) {
    const number = this.numbers.get(address) ?? this.add(address);
    this.numbers.set(address, number);
    return number;
  }

  /**
   * The number of a module that another one imports, or undefined if its name says no address. Called by source.js.
   * @param {string} name
   * @param {string} base the address of the module that imports it
   */
  named(name, base) {
    if (!SAYS_ADDRESS.test(name)) return undefined;
    try {
      return this.at(new URL(name, base).href.replace(/#.*$/, ''));
    } catch {
      return undefined; // no address
    }
  }

  /**
   * The address of a module. Called by trace/names.js.
   * @param {number} number
   */
  addressOf(number) {
    return this.addresses[number - FIRST_MODULE];
  }
}

module.exports = { Modules };
