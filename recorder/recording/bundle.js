'use strict';
// Puts modules together into one text, for a page or a world of its own. Each module is a function, so only its exports can be seen outside of it. Names
// are the same as in the file, in stacks too, and the first line of each module has the name of its file. Comments and blanks at the start of a line are
// left out, not the lines themselves, unless the caller shortens the modules. It is a small bundler for ES modules.
//
// The modules have only two forms, so no parser is needed: `import { a, b as c } from './file.js';` at the start of a line, and one `export { a, b };` at
// the end. Other forms are refused, as are names that are not exported, and cycles.

const fs = require('node:fs');
const path = require('node:path');

/** The only forms of modules in page/: README.md, "The page's half". */
const IMPORT = /^import (\{[^{}]*\}) from '(\.[^']*\.js)';$/gm;
const EXPORT = /^export (\{[^{}]*\});\s*$/m;
const OTHER = /^(?:import|export)\b.*/m;
const AS = /\s+as\s+/g;
/** Comments that begin a line, and blanks there. */
const COMMENT = /^[ \t]*(?:\/\*\*[^]*?\*\/|\/\/.*)$/gm;
const INDENT = /^[ \t]+/gm;

/** @param {string} braces */
const namesIn = (braces) => braces.slice(1, -1).split(',').map((name) => name.trim()).filter(Boolean);

/** @param {string} text */
const withoutComments = (text) => text.replace(COMMENT, (comment) => comment.replace(/[^\n]+/g, '')).replace(INDENT, '');

/** @typedef {{constant: string, exported: string[]}} Module the constant that has the exports, and their names */

/** The modules of a bundle, each after those that it imports. */
class Bundle {
  /**
   * @param {string} folder of the module whose exports are wanted: names of files are relative to it
   * @param {(code: string) => string} shorten
   */
  constructor(folder, shorten) {
    this.folder = folder;
    this.shorten = shorten;
    /** @type {Map<string, Module|null>} by file; null while the imports of the module are read */
    this.modules = new Map();
    /** @type {string[]} */
    this.texts = [];
  }

  /**
   * Adds a module, and before it those that it imports.
   * @param {string} file
   * @returns {Module}
   */
  add(file) {
    const known = this.modules.get(file);
    if (known) return known;
    if (known === null) throw new Error(`${file}: imports itself, by way of others`);
    this.modules.set(file, null);
    /** @type {string[]} */
    let exported = [];
    const text = withoutComments(fs.readFileSync(file, 'utf8'))
      .replace(IMPORT, (all, names, from) => this.taken(file, names, path.join(path.dirname(file), from)))
      .replace(EXPORT, (all, names) => { exported = namesIn(names); return `return ${names};\n`; });
    const other = OTHER.exec(text);
    if (other) throw new Error(`${file}: ${other[0]}: imports have one form, exports are at the end`);
    const module = { constant: `module${this.texts.length}`, exported };
    this.texts.push(`const ${module.constant} = (() => { // ${this.nameOf(file)}\n${this.shorten(text)}})();`);
    this.modules.set(file, module);
    return module;
  }

  /** @param {string} file */
  nameOf(file) {
    return path.relative(this.folder, file);
  }

  /**
   * The text in place of an import.
   * @param {string} file
   * @param {string} names in braces
   * @param {string} from
   */
  taken(file, names, from) {
    const { constant, exported } = this.add(from);
    const missing = namesIn(names).find((name) => !exported.includes(name.split(AS)[0]));
    if (missing) throw new Error(`${file}: ${path.basename(from)} does not export ${missing}`);
    return `const ${names.replaceAll(AS, ': ')} = ${constant};`;
  }
}

/**
 * Called by page-script.js and view/html.js.
 * @param {string} entry the file of the module whose exports are wanted
 * @param {string[]} parameters names that the modules know
 * @param {(code: string) => string} [shorten] what is made of the code of each module
 * @returns {string} a function of the parameters that runs the modules and returns the exports
 */
function bundled(entry, parameters, shorten = (code) => code) {
  const bundle = new Bundle(path.dirname(path.resolve(entry)), shorten);
  const { constant } = bundle.add(path.resolve(entry));
  return `(function (${parameters.join(', ')}) {\n'use strict';\n${bundle.texts.join('\n')}\nreturn ${constant};\n})`;
}

module.exports = { bundled, withoutComments };
