// What runs now: the running event, the code on the stack. A page and its frames share one recording. Here a task starts, and its microtasks are over (a
// checkpoint).

import { each } from '../core/lists.js';
import { settings } from '../core/settings.js';
import { callsOfPage, ownPlace, placeOnStack } from '../log/stack.js';
import { Objects } from '../objects/objects.js';
import { OpenDispatches } from './open-dispatches.js';
import { isBefore } from './order.js';
import { Steering } from './steering.js';
import { Unmarked } from './unmarked.js';

/** The jobs of an action are over when this many turns of the job queue ran nothing that the recorder sees. */
const TURNS_OF_A_CHECKPOINT = 24;

/** One for a page and its frames: main.js makes it in the top document. */
class Recording extends OpenDispatches {
  /**
   * @param {import('../types').Natives} natives
   * @param {import('../types').Send} send
   */
  constructor(natives, send) {
    super(natives, send);
    /** Whether promise jobs run after the code of an action. */
    this.isCheckpoint = false;
    this.turns = 0;
    /** How deep the timer is nested whose callback runs, or 0. */
    this.nesting = 0;
    /** Whether code of the page has run while nothing recorded ran, as that of a `javascript:` address at `location`: more of it can come. */
    this.hasUnseenCode = false;
    /** Whether the page has a handler for rejections that nobody handles. */
    this.tellsRejections = false;
    this.unmarked = new Unmarked();
    this.steering = new Steering(natives, settings.holds, settings.turns);
    this.steering.start(this.log);
    /** The number of the user act that the driver does now, or 0. */
    this.act = 0;
    const objects = settings.depth === 'objects' ? new Objects(this) : null;
    this.objects = objects;
    if (objects) this.log.beforeSending = () => objects.settleEarly(); // no page answers while it is left (--attach)
  }

  /** The driver says which act of the user it does now, or 0. Called by recording/acts.js. */
  setAct(/** @type {number} */ number) {
    this.act = number;
  }

  // ---- notes and accesses

  /**
   * A note belongs to the running action; if nothing recorded runs, to the first action of the trace.
   * @param {string} line
   * @param {import('../types').Place} place
   * @param {number} stack
   */
  note(line, place = placeOnStack(), stack = 0) {
    if (this.isOver) return;
    if (this.isRunning()) {
      this.finishReturned();
      this.log.line(line, place, '', stack);
    } else {
      this.log.line(`early ${line}`, place, '', stack);
    }
  }

  /**
   * A note of what code requests, with all calls that led to it: a library may do it for the page.
   * @param {string} line
   * @returns {string} the place
   */
  noteAsking(line) {
    const calls = callsOfPage();
    const place = ownPlace(calls);
    this.note(line, place, this.log.numberOfStack(calls));
    return place;
  }

  /**
   * The running action, to be named when it is long over, or null if nothing recorded runs.
   * @returns {import('../types').Moment|null}
   */
  moment() {
    if (this.isOver || !this.isRunning()) return null;
    this.finishReturned();
    return this.lastMoment();
  }

  /** The number of the action that makes something now, or 0 if nothing recorded runs. Called by page/helpers/scopes.js and page/objects/made-elements.js. */
  makingAction() {
    if (this.isOver || !this.isRunning()) return 0;
    this.finishReturned();
    return this.actions;
  }

  /**
   * Records an access of the running action. If nothing recorded runs, it is counted.
   * @param {string} mode
   * @param {string} location
   * @param {import('../types').Place} [place]
   * @param {import('../types').Found} [found]
   */
  access(mode, location, place, found) {
    if (this.mayAccess()) this.accessNow(mode, location, place, found);
  }

  /**
   * Whether an access can be written now. Dispatches that returned meanwhile are over then. Called by page/accesses/globals.js, page/helpers/wholes.js and
   * page/objects/sites.js.
   */
  mayAccess() {
    if (this.isOver) return false;
    if (!this.isRunning()) {
      this.log.miss('accesses while nothing recorded ran');
      this.hasUnseenCode = true;
      this.unmarked.noteAnywhere();
      return false;
    }
    if (!this.contexts.length) this.turns = TURNS_OF_A_CHECKPOINT;
    this.finishReturned();
    return true;
  }

  /**
   * Whether rules are known to put an event before the running one.
   * @param {import('../types').TraceEvent} event
   */
  isBeforeRunning(event) {
    return isBefore(this.running, event);
  }

  // ---- what runs

  /** Whether recorded code runs: it is on the stack, or its microtasks run. */
  isRunning() {
    return this.hasBegun && (this.contexts.length > 0 || this.isCheckpoint);
  }

  /** The browser's event loop calls something: everything before it is over. */
  startTask() {
    if (this.contexts.length) {
      this.endPiece();
      this.contexts.length = 0;
      each(this.dispatches, (dispatch) => { dispatch.active = 0; });
    }
    this.isCheckpoint = false;
    this.startPiece();
    this.nesting = 0;
    this.task++;
    this.finishAll();
    each(this.pages, ({ elements, tree }) => {
      elements.writeJoining();
      tree.collect('parser');
    });
    each(this.pages, (page) => page.lookForNextDocument());
    this.log.sendIfDue(this.natives.now());
  }

  /** The number of the task changes when this one is over. Called by page/events/dispatches.js. */
  watchTask() {
    this.natives.postTask(() => { this.task++; });
  }

  /**
   * Code begins to run: `leave` or `leaveCall` ends it.
   * @param {string} kind
   * @param {import('../scripts/scripts.js').FunctionOfScript[]} functions those of a script, which are there before it begins
   */
  enter(kind, functions = []) {
    if (!this.contexts.length && !this.isCheckpoint && !this.isOver) each(this.pages, ({ reach }) => reach.lookBefore());
    if ((settings.isDriven || this.hasUnseenCode) && !this.isRunning()) {
      each(this.pages, (page) => page.unseen.takeOver(functions));
    }
    this.contexts[this.contexts.length] = kind;
  }

  /** Code returns that the page sees as one whole. */
  leave() {
    this.endPiece();
    this.leaveCall();
  }

  /** Code returns whose changes of the tree the code around it writes, or whose caller has called `endPiece`. Tools replace this method (stamps.js). */
  leaveCall() {
    this.startPiece();
    if (this.contexts.length) this.contexts.length--;
    if (!this.contexts.length) this.startCheckpoint();
  }

  /** A piece of an event ends: its changes of the tree and of the window are written before anything else. */
  endPiece() {
    if (this.isOver) return;
    this.finishReturned();
    each(this.pages, ({ tree }) => tree.collect('script'));
    if (this.unmarked.takeDue(this.contexts)) each(this.pages, ({ unseen }) => unseen.compare());
    this.values.write();
  }

  /** No code is on the stack: the microtasks of the running event run now. Called by page/tasks/jobs.js. */
  startCheckpoint() {
    this.turns = TURNS_OF_A_CHECKPOINT;
    if (this.tellsRejections) each(this.pages, ({ queued }) => queued.noteJobs(this.running));
    if (this.isCheckpoint) return;
    this.isCheckpoint = true;
    this.#turnAll();
  }

  /** The turns of the queue of microtasks: an `await` of nothing is a turn, and costs far less than `queueMicrotask`. */
  async #turnAll() {
    do await undefined; while (this.#turn());
  }

  /** One turn of the queue of microtasks. Returns whether another one is due. */
  #turn() {
    if (!this.isCheckpoint) return false;
    this.turns--;
    this.startPiece(); // accesses of a job keep the turns going
    if (this.turns > 0) return true;
    this.#endCheckpoint();
    return false;
  }

  /** The microtasks of the running event are over. */
  #endCheckpoint() {
    each(this.pages, ({ tree }) => tree.collect('script'));
    each(this.pages, ({ reach }) => reach.lookAfter());
    this.isCheckpoint = false;
  }

  // ---- the end

  /** Writes the last lines, as the recording ends. */
  finish() {
    this.startTask();
    this.isOver = true;
    this.flush();
  }

  /** Sends everything so far, if the page is asked for it while the recording goes on. Called by page/main.js. */
  flush() {
    if (this.objects) this.objects.settleEarly();
    this.log.sendAll(this.natives.now());
  }
}

export { TURNS_OF_A_CHECKPOINT, Recording };
