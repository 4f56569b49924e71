// The recorder of one document, with all its parts. All modules are made and started here. Hooks hide: `Function.prototype.toString` shows the browser's text
// of a replaced function.

import { each, findItem, keep } from './core/lists.js';
import { withoutMarks } from './core/marks.js';
import { replaceMethod, replacedFunctions } from './core/replacing.js';
import { String, apply, getPrototypeOf } from './core/taken.js';
import { sliceOf } from './core/strings.js';
import { Definitions } from './accesses/definitions.js';
import { Fields } from './accesses/fields.js';
import { Globals } from './accesses/globals.js';
import { Imports } from './accesses/imports.js';
import { Lookups } from './accesses/lookups.js';
import { Unseen } from './accesses/unseen.js';
import { Joins } from './recording/joins.js';
import { Attributes } from './document/attributes.js';
import { Controls } from './reach/controls.js';
import { Elements } from './document/elements.js';
import { Kinds } from './document/kinds.js';
import { Loading } from './document/loading.js';
import { Made } from './document/made.js';
import { Reach } from './reach/reach.js';
import { Reactions } from './document/reactions.js';
import { Shadows } from './document/shadows.js';
import { Sources } from './document/sources.js';
import { Tree } from './document/tree.js';
import { Calls } from './events/calls.js';
import { Capturing } from './events/capturing.js';
import { Causes } from './events/causes.js';
import { Dispatches } from './events/dispatches.js';
import { Guards } from './events/guards.js';
import { Handlers } from './events/handlers.js';
import { Media } from './events/media.js';
import { Messages } from './events/messages.js';
import { Motions } from './events/motions.js';
import { Navigations } from './events/navigations.js';
import { OnHandlers } from './events/on-handlers.js';
import { Played } from './events/played.js';
import { Queued } from './events/queued.js';
import { Addresses } from './scripts/addresses.js';
import { Broken } from './scripts/broken.js';
import { InOrder } from './scripts/in-order.js';
import { InsertedModules } from './scripts/inserted-modules.js';
import { Insertions } from './scripts/insertions.js';
import { Modules } from './scripts/modules.js';
import { Ready } from './scripts/ready.js';
import { Scripts } from './scripts/scripts.js';
import { Callbacks } from './tasks/callbacks.js';
import { Chaos } from './tasks/chaos.js';
import { Clock } from './tasks/clock.js';
import { Connections } from './tasks/connections.js';
import { EarlierReactions } from './tasks/earlier-reactions.js';
import { EndedCallbacks } from './tasks/ended-callbacks.js';
import { EndedRequests } from './tasks/ended-requests.js';
import { Jobs } from './tasks/jobs.js';
import { Observers } from './tasks/observers.js';
import { Promises } from './tasks/promises.js';
import { Requests } from './tasks/requests.js';
import { Timers } from './tasks/timers.js';
import { documentOf } from './core/things.js';
import { numberOfFrame } from './frames.js';

/** Made by main.js for the top document and each frame of its origin. */
class Page {
  /**
   * @param {import('./types').PageWindow} window
   * @param {import('./types').Recording} recording
   * @param {number} number of its document
   * @param {import('./types').Natives} natives
   */
  constructor(window, recording, number, natives) {
    this.window = window;
    this.recording = recording;
    this.natives = natives;
    this.EventTarget = window.EventTarget;
    this.kinds = new Kinds(natives);
    // the parts of a document, which takeDocument makes again
    this.number = number;
    this.document = window.document;
    this.loading = new Loading(this);
    this.elements = new Elements(this);
    this.tree = new Tree(this);
    this.sources = new Sources(this);
    this.reach = new Reach(this);
    this.inOrder = new InOrder(this);
    this.insertions = new Insertions(this);
    this.shadows = new Shadows(this);
    /** Whether it is the empty page in which a frame starts. */
    this.isFirstInFrame = number > 0 && this.document.URL === 'about:blank';
    this.ready = new Ready(this);
    this.globals = new Globals(this);
    this.unseen = new Unseen(this);
    this.imports = new Imports(this);
    this.dispatches = new Dispatches(this);
    this.capturing = new Capturing(this);
    this.controls = new Controls(this);
    this.queued = new Queued(this);
    this.causes = new Causes(this);
    this.motions = new Motions(this);
    this.media = new Media(this);
    this.played = new Played(this);
    this.navigations = new Navigations(this);
    this.guards = new Guards(this);
    this.handlers = new Handlers(this);
    this.onHandlers = new OnHandlers(this);
    this.calls = new Calls(this);
    this.attributes = new Attributes(this);
    this.made = new Made(this);
    this.lookups = new Lookups(this);
    this.fields = new Fields(this);
    this.definitions = new Definitions(this);
    this.joins = new Joins(this);
    this.chaos = new Chaos(this);
    this.timers = new Timers(this);
    this.clock = new Clock(this);
    this.callbacks = new Callbacks(this);
    this.jobs = new Jobs(this);
    this.promises = new Promises(this);
    this.earlierReactions = new EarlierReactions(this);
    this.observers = new Observers(this);
    this.requests = new Requests(this);
    this.endedRequests = new EndedRequests(this);
    this.endedCallbacks = new EndedCallbacks(this);
    this.connections = new Connections(this);
    this.messages = new Messages(this);
    this.reactions = new Reactions(this);
    this.scripts = new Scripts(this);
    this.broken = new Broken(this);
    this.modules = new Modules(this);
    this.insertedModules = new InsertedModules(this);
    this.addresses = new Addresses(this);
  }

  /**
   * The window shows another document.
   * @param {number} number
   */
  #takeDocument(number) {
    this.number = number;
    this.document = this.window.document;
    this.loading = new Loading(this);
    this.elements = new Elements(this);
    this.tree = new Tree(this);
    this.sources = new Sources(this);
    this.reach = new Reach(this);
    this.inOrder = new InOrder(this);
    this.insertions = new Insertions(this);
    this.shadows = new Shadows(this);
  }

  /**
   * Starts all parts: from now on their hooks are in place. `main.js` calls it before any script of the document.
   * @param {'parser'|undefined} maker of what is in it by now
   */
  start(maker) {
    const { recording } = this;
    recording.pages = keep(recording.pages, (page) => page.window !== this.window);
    recording.pages[recording.pages.length] = this;
    this.recording.elementNumbers.delete(this.window); // a frame's window stays the same object for its next page
    if (this.recording.objects) this.recording.objects.addWindow(this);
    this.#beginDocument();
    const parts = [this.chaos, this.guards, this.handlers, this.onHandlers, this.capturing, this.calls, this.attributes, this.made, this.lookups, this.fields, this.definitions, this.causes, this.media, this.navigations, this.timers, this.callbacks,
      this.jobs, this.promises, this.observers, this.requests, this.endedRequests, this.endedCallbacks, this.connections, this.messages, this.reactions, this.clock, this.unseen];
    each(parts, (part) => part.start());
    this.#replaceToString();
    this.tree.start(maker);
    this.unseen.compare();
    this.recording.steering.holdLoad(this);
  }

  /**
   * An empty page that code has touched passes its window to the frame's next page, with everything in it, and no recorder starts there. So it is
   * looked for as a task starts: what the next page has by then is the parser's. Called by page/recording/recording.js.
   */
  lookForNextDocument() {
    const { window, recording } = this;
    const document = this.isFirstInFrame ? documentOf(window) : this.document;
    if (document === this.document) return;
    this.isFirstInFrame = false;
    const isOfWindow = document && getPrototypeOf(document) === getPrototypeOf(this.document); // another window has prototypes of its own
    const number = isOfWindow ? numberOfFrame(window, recording, false) : -1;
    if (number < 0) return;
    if (this.loading.hasBegunLoad) recording.elementNumbers.delete(window); // its load has looked for no handlers of the next page
    this.tree.stop();
    this.#takeDocument(number);
    this.loading.isHeardLate = true;
    this.#beginDocument();
    this.capturing.captureAgain();
    this.tree.start('parser');
    recording.steering.holdLoad(this);
  }

  /** The first action of a document: a step that makes the document itself, and its window if no other document had it before. */
  #beginDocument() {
    const { recording, document, elements } = this;
    elements.markDeclared(document, 'plain');
    const number = elements.number(document);
    if (recording.contexts.length) recording.note(`new ${this.number} ${number} plain`);
    else recording.beginParse(this.number, `${number} plain`);
    recording.log.name('document', this.number, { address: sliceOf(String(document.URL), 0, 400) });
    if (recording.declared.has(elements.number(this.window))) return;
    elements.markDeclared(this.window, 'plain');
    recording.log.line(`new ${this.number} ${elements.number(this.window)} plain`);
  }

  /**
   * Makes a plain element of the document for something that is no element, as promises (tasks/jobs.js). It is no target of the page, so
   * `elements.markDeclared` knows nothing of it. Called by page/tasks/jobs.js.
   * @param {string} what
   * @returns {number} its number
   */
  newPlainElement(what) {
    const number = this.recording.next('element');
    this.recording.log.line(`new ${this.number} ${number} plain`);
    this.recording.log.name('element', number, { tag: what });
    return number;
  }

  /**
   * The number of the document that a target belongs to. Called by page/document/elements.js, page/document/sources.js and page/reach/controls.js.
   * @param {import('./types').Target} target
   */
  numberOfDocumentOf(target) {
    const owner = target.nodeType ? target.ownerDocument : null;
    if (!owner || owner === this.document) return this.number;
    const page = findItem(this.recording.pages, (one) => one.document === owner);
    return page ? page.number : this.number;
  }

  /** The page sees the texts of its functions without marks. */
  #replaceToString() {
    replaceMethod(this.window.Function.prototype, 'toString', (native) => function toString() {
      return withoutMarks(apply(native, replacedFunctions.get(this) || this, []));
    });
  }
}

export { Page };
