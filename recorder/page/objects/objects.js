// Properties of objects, items of arrays, keys of maps, variables of closures and windows: all that a page's code shares, in its parts.
// The parts know each other by `this.objects`.

import { Callers } from './callers.js';
import { Collections } from './collections.js';
import { Holder, WINDOW } from './holders.js';
import { Kinds } from './kinds.js';
import { MadeElements } from './made-elements.js';
import { ObjectNames } from './object-names.js';
import { Patterns } from './patterns.js';
import { Properties } from './properties.js';
import { Prototypes } from './prototypes.js';
import { Scopes } from './scopes.js';
import { Sites } from './sites.js';
import { Trees } from './trees.js';
import { Variables } from './variables.js';

/** One for each recording, if the depth is `objects`: `recording.objects`. */
class Objects {
  /** @param {import('../types').Recording} recording */
  constructor(recording) {
    this.recording = recording;
    this.kinds = new Kinds(this);
    this.objectNames = new ObjectNames(this);
    this.callers = new Callers(recording);
    this.variables = new Variables(this);
    this.madeElements = new MadeElements(this);
    this.prototypes = new Prototypes(this);
    this.trees = new Trees(this);
    this.properties = new Properties(this);
    this.collections = new Collections(this);
    this.patterns = new Patterns(this);
    this.sites = new Sites(recording);
    this.scopes = new Scopes(this);
  }

  /**
   * Called for each window before its page runs: its prototypes, and itself, are known then.
   * @param {import('../types').Page} page
   */
  addWindow(page) {
    this.trees.addWindow(page);
    this.kinds.addWindow(page);
    page.globals.holder = new Holder(WINDOW, -1, page);
    this.kinds.holders.set(page.window, page.globals.holder);
  }

  /** The running action is over. Called by page/recording/lines.js. */
  settleWrites() {
    this.variables.settleWrites();
  }

  /** The lines so far are wanted, and the action can go on. Called by page/recording/recording.js. */
  settleEarly() {
    this.variables.settleEarly();
    this.recording.startPiece();
  }

  /** The sites forget what they have met, because another piece of code starts. */
  forget() {
    this.sites.forget();
  }
}

export { Objects };
