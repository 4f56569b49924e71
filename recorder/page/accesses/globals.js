// Global variables: the reads and writes of instrumented code. `var` and function declarations at the top of scripts, and properties of the window.

import { each } from '../core/lists.js';
import { Map, Object, Set, Uint32Array } from '../core/taken.js';
import { spellName } from '../log/spelling.js';
import { MISSING } from '../log/values.js';
import { IS_COUNTED, READ, WRITE } from '../objects/holders.js';

/** Room for so many sites at first; the list grows. */
const FIRST_SITES = 4096;
/** A part of the cells has 64 sites. */
const BITS_OF_PART = 6;
const LAST_OF_PART = (1 << BITS_OF_PART) - 1;

/**
 * A longer list that starts with the same numbers, and has room for an index.
 * @param {Uint32Array} numbers
 * @param {number} index
 */
function enlarged(numbers, index) {
  const longer = new Uint32Array(2 * (index + 1));
  longer.set(numbers);
  return longer;
}

/** One for each document: `page.globals`. */
class Globals {
  /** @param {import('../types').Page} page */
  constructor(page) {
    this.page = page;
    this.recording = page.recording;
    /** In locations the window has the number of its first document. */
    this.number = page.number;
    /** @type {Set<string>} */
    this.builtins = new Set(['__er']);
    for (let owner = /** @type {object|null} */ (page.window); owner; owner = Object.getPrototypeOf(owner)) {
      each(Object.getOwnPropertyNames(owner), (name) => { this.builtins.add(name); });
    }
    /**
     * The values after the last piece of code, by name.
     * @type {Map<string, unknown>}
     */
    this.values = new Map();
    /**
     * Variables that scripts declare and that are no properties of the window, by name.
     * @type {Map<string, {now: unknown}>}
     */
    this.lexicals = new Map();
    /**
     * By site: its variable among these, or null. In parts, as few sites write global variables.
     * @type {(({now: unknown}|null|undefined)[]|undefined)[]}
     */
    this.cells = [];
    /**
     * With objects, global variables are written as theirs are (variables.js).
     * @type {import('../types').Holder|null}
     */
    this.holder = null;
    /** For each site in instrumented code the number of the last piece of code that had its access. */
    this.lastPieces = new Uint32Array(FIRST_SITES);
  }

  /** A script declares variables with names of the browser. A `var` of such a name is the page's if it can be written. Called by page/helpers/runs.js. */
  take(/** @type {[name: string, isVar: boolean][]} */ taken) {
    each(taken, ({ 0: name, 1: isVar }) => {
      const found = this.propertyOf(name);
      if (!isVar || !found || found.set || found.writable) this.builtins.delete(name);
    });
  }

  /** The location of a global variable, as the trace has it. Also for unseen.js. */
  location(/** @type {string} */ name) {
    return `var ${this.number} ${spellName(name)}`;
  }

  /**
   * Whether the running piece of code has had this access already: most accesses of code that loops are repeated, and cost no more.
   * @param {number} site
   */
  #isRepeat(site) {
    return this.lastPieces[site] === this.recording.pieces;
  }

  /**
   * The site has had its access in this piece of code.
   * @param {number} site
   */
  #note(site) {
    if (site >= this.lastPieces.length) this.lastPieces = enlarged(this.lastPieces, site);
    this.lastPieces[site] = this.recording.pieces;
  }

  /**
   * Called by helpers, before the code reads the name.
   * @param {string} name
   * @param {number} site
   */
  read(name, site) {
    if (this.#isRepeat(site) || !this.recording.mayAccess()) return;
    this.page.ready.look(name);
    const isVariable = !!this.propertyOf(name) || this.lexicals.has(name);
    if (isVariable) this.#note(site);
    if (this.builtins.has(name)) return;
    this.#touch(name, READ, site);
    if (!isVariable) this.#readNamedElement(name, site);
  }

  /**
   * A write that has happened, or is about to. Called by page/helpers/globals.js and page/objects/properties.js.
   * @param {string} name
   * @param {number} site
   */
  write(name, site) {
    if (this.#isDue(name, site)) this.#touchWritten(name, site);
  }

  /**
   * An expression that has read and changed a variable. Called by page/helpers/globals.js and page/objects/properties.js.
   * @param {string} name
   * @param {number} site
   */
  update(name, site) {
    if (!this.#isDue(name, site)) return;
    this.#touchRead(name, site);
    this.#touchWritten(name, site);
  }

  /**
   * An update whose value nobody uses. Called by page/helpers/globals.js and page/objects/properties.js.
   * @param {string} name
   * @param {number} site
   */
  count(name, site) {
    if (!this.#isDue(name, site)) return;
    const variable = this.holder?.variable(name);
    const isOnlyCounted = !!variable && !!this.recording.objects?.variables.isOnlyCounted(variable);
    this.#touchRead(name, site);
    this.#touchWritten(name, site);
    if (variable && isOnlyCounted) variable.flags |= IS_COUNTED;
  }

  /**
   * A read of a global: of the variable of an object, if the recording has objects.
   * @param {string} name
   * @param {number} site
   */
  #touchRead(name, site) {
    if (this.holder) this.recording.objects?.variables.readAs(this.holder, this.holder.variable(name), site, this.#valueBefore(name));
    else this.#touch(name, READ, site);
  }

  /**
   * A write of a global, with the value from before, if the recording has objects.
   * @param {string} name
   * @param {number} site
   */
  #touchWritten(name, site) {
    if (this.holder) this.stage(name, site);
    else this.#touch(name, WRITE, site);
  }

  /**
   * A `let`, a `const` or a class at the top of a script has its value in a cell of its own, as no property of the window has it. Called by
   * page/helpers/globals.js.
   * @param {number} site
   * @param {string} name
   * @param {unknown} value
   */
  noteValueAt(site, name, value) {
    const part = this.cells[site >> BITS_OF_PART] || this.#addPart(site >> BITS_OF_PART);
    let cell = part[site & LAST_OF_PART];
    if (cell === undefined) cell = part[site & LAST_OF_PART] = this.#cellOf(name);
    if (cell !== null) cell.now = value;
  }

  /**
   * Adds a part of the cells.
   * @param {number} index
   */
  #addPart(index) {
    for (let k = this.cells.length; k < index; k++) this.cells[k] = undefined;
    /** @type {({now: unknown}|null|undefined)[]} */
    const part = [];
    for (let k = 0; k <= LAST_OF_PART; k++) part[k] = undefined;
    return this.cells[index] = part;
  }

  /**
   * Where the last known value of a `let`, `const` or `class` of the top is: it is no property of the window.
   * @param {string} name
   */
  #cellOf(name) {
    if (this.propertyOf(name)) return null;
    let cell = this.lexicals.get(name);
    if (cell === undefined) this.lexicals.set(name, cell = { now: /** @type {unknown} */ (MISSING) });
    return cell;
  }

  /**
   * Whether an access can be written that the running piece of code has not had yet. From now on it has. Called by imports.js and page/helpers/globals.js.
   * @param {number} site
   */
  isFirst(site) {
    if (this.#isRepeat(site) || !this.recording.mayAccess()) return false;
    this.#note(site);
    return true;
  }

  /**
   * Whether a write by a name of the page is to be recorded: its first at the site in this piece.
   * @param {string} name
   * @param {number} site
   */
  #isDue(name, site) {
    return this.isFirst(site) && !this.builtins.has(name);
  }

  /**
   * Records an access, by what the depth of the recording has.
   * @param {string} name
   * @param {number} mode
   * @param {number} site
   */
  #touch(name, mode, site) {
    if (this.holder) this.recording.objects?.variables.touchName(this.holder, name, mode, site);
    else this.recording.accessNow(mode === READ ? 'r' : 'w', this.location(name), site, () => this.valueOf(name));
  }

  /**
   * A function that a script declares is there before its code runs: the last look at the window has the value before. Called by page/scripts/scripts.js.
   * @param {string} name
   * @param {number} site
   */
  declare(name, site) {
    if (!this.holder) this.write(name, site);
    else if (this.#isDue(name, site)) this.stage(name, site);
  }

  /**
   * Records a write that comes now, with the value from before. Called by unseen.js.
   * @param {string} name
   * @param {number} site
   */
  stage(name, site) {
    const { holder } = this;
    if (!holder) return;
    const variable = holder.variable(name);
    variable.flags &= ~IS_COUNTED;
    this.recording.objects?.variables.stage(holder, variable, site, this.#valueBefore(name));
  }

  /** @param {string} name */
  #valueBefore(name) {
    return this.values.has(name) ? this.values.get(name) : MISSING;
  }

  /**
   * The value of a variable, without a call of the page's code. Called by page/objects/variables.js and page/scripts/ready.js.
   * @param {string} name
   * @returns {unknown}
   */
  valueOf(name) {
    const descriptor = this.propertyOf(name);
    if (descriptor) return 'value' in descriptor ? descriptor.value : MISSING;
    const cell = this.lexicals.get(name);
    return cell === undefined ? MISSING : cell.now;
  }

  /**
   * A property of the window; undefined if a page of another origin is in the frame by now. Called by unseen.js and page/tasks/clock.js.
   * @param {string} name
   */
  propertyOf(name) {
    try {
      return Object.getOwnPropertyDescriptor(this.page.window, name);
    } catch { // another origin
      return undefined;
    }
  }

  /**
   * A write that is in the log is no unseen one. Called by page/objects/variables.js.
   * @param {string} name
   * @param {unknown} value
   */
  noteValue(name, value) {
    if (value !== MISSING) this.values.set(name, value);
  }

  /**
   * A name that is no variable is looked up among the elements with an id, whether there is one or not.
   * @param {string} name
   * @param {number} site
   */
  #readNamedElement(name, site) {
    this.recording.access('r', `elem ${this.page.number} ${spellName(name)}`, site, () => this.page.elements.find(name));
  }
}

export { Globals };
