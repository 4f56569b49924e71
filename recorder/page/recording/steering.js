// Steering of a replay (`recording.steering`, made by recording.js): holds things back that the page requests, until the driver releases them; else nothing.

import { each, findItem, joined, keep } from '../core/lists.js';
import { settings } from '../core/settings.js';
import { sliceOf, withoutFragment } from '../core/strings.js';
import { String, WeakSet, apply } from '../core/taken.js';
import { callsOfPage, ownPlace } from '../log/stack.js';
import { unlessCleared, watchClearing } from './clearing.js';
import { testOfCode } from './spots.js';

class Steering {
  /**
   * @param {import('../types').Natives} natives
   * @param {(import('../types').Hold|null)[]|null} holds what is held back
   * @param {{word: string, place: string, count: number}|null} turns how often callbacks come that the code at a place
   *   requests, in a page that never rests
   */
  constructor(natives, holds, turns) {
    this.natives = natives;
    this.isActive = holds !== null;
    /** @type {import('../types').Held[]} */
    this.holds = [];
    this.expect(holds || []);
    this.turns = turns && { ...turns, taken: 0 };
    /**
     * Events that were held back and that the recorder dispatches now.
     * @type {WeakSet<Event>}
     */
    this.released = new WeakSet();
    /** @type {WeakSet<Event>} */
    this.seen = new WeakSet();
    /** @type {import('../log/log').Log|null} */
    this.log = null;
  }

  /**
   * In a replay the driver gets each line after the task that wrote it; another program might close the page directly after that.
   * @param {import('../log/log').Log} log
   */
  start(log) {
    this.log = log;
    if (!this.isActive) return;
    log.sendSoon = (send) => {
      if (settings.isDriven) this.natives.postTask(send);
      else this.natives.setTimeout(send, 0);
    };
  }

  // ---- what is held back

  /**
   * Holds things back from now on. A hold that is known gets the places of its code, if that is instrumented only now. Called by driven/load-steering.js.
   * @param {(import('../types').Hold|null)[]} holds
   */
  expect(holds, isOfPage = false) {
    each(holds, (hold) => {
      const known = hold && findItem(this.holds, ({ id }) => id === hold.id);
      if (known && !isOfPage) known.spots = hold.spots;
      if (known) return;
      if (hold) this.holds[this.holds.length] = { ...hold, asked: 0, isLet: false, waiting: [], request: null, isCleared: false, target: null, met: 0 };
    });
  }

  /**
   * The hold of what the running code requests now, or undefined. Called by page/events/messages.js, page/tasks/observers.js and page/tasks/timers.js.
   * @param {string} word
   */
  asks(word) {
    const mayBe = keep(this.holds, (hold) => hold.word === word && !hold.isLet);
    if (!mayBe.length) return undefined;
    const here = keep(mayBe, testOfCode());
    each(here, (hold) => hold.asked++);
    return findItem(here, (hold) => hold.asked === hold.nth);
  }

  /**
   * Something waits for the release of a hold.
   * @param {import('../types').Held} hold
   * @param {import('../types').Waiting} one
   */
  #keep(hold, one) {
    if (!hold.waiting.length) this.log?.name('held', hold.id, {});
    hold.waiting[hold.waiting.length] = one;
  }

  /**
   * A callback that waits, if it is held back, until it is released; `again` requests it once more from the browser then. Called by page/tasks/timers.js.
   * @param {import('../types').Held|undefined} hold
   * @param {import('../types').Callback} run
   * @param {(run: import('../types').Callback) => void} again
   * @returns {import('../types').Callback}
   */
  callback(hold, run, again) {
    if (!hold) return run;
    return (...args) => {
      if (hold.isLet) apply(run, undefined, args);
      else if (!hold.waiting.length) this.#keep(hold, { go: () => again(unlessCleared(hold, run)) });
    };
  }

  /**
   * A callback that runs only as often as the replay says. Called by page/tasks/timers.js.
   * @param {string} word
   * @param {import('../types').Callback} run
   * @returns {import('../types').Callback}
   */
  limited(word, run) {
    const { turns } = this;
    if (!turns || turns.word !== word || ownPlace(callsOfPage()) !== turns.place) return run;
    return (...args) => {
      if (turns.taken++ < turns.count) apply(run, undefined, args);
    };
  }

  /**
   * Notes what the browser's function for the callback returned to the page, with which the page can clear it. Called by page/tasks/timers.js.
   * @param {import('../types').Held|undefined} hold
   * @param {import('../types').PageWindow} window
   * @param {string} queue whose numbers it has, of clearing.js
   * @param {number} number
   */
  note(hold, window, queue, number) {
    if (hold) hold.request = { window, queue, number };
    return number;
  }

  /**
   * Called for each window, by timers.js. A driven browser learns only later what it holds back.
   * @param {import('../types').PageWindow} window
   */
  watchClearing(window) {
    if (this.isActive) watchClearing(window, this.holds);
  }

  /**
   * Sends a message, or holds it back; messages that are posted to the same receiver meanwhile come after it. Called by page/events/messages.js.
   * @param {import('../types').Held|undefined} hold
   * @param {unknown} receiver
   * @param {() => void} send
   */
  post(hold, receiver, send) {
    const before = findItem(this.holds, ({ waiting }) => findItem(waiting, (one) => one.receiver === receiver));
    const holding = before || hold;
    if (holding) this.#keep(holding, { receiver, go: send });
    else send();
  }

  /**
   * The window's load waits for an image that the driver holds back. It is nowhere in the page. Called by page/page.js.
   * @param {import('../types').Page} page
   */
  holdLoad(page) {
    const address = withoutFragment(String(page.document.URL));
    const hold = findItem(this.holds, (one) => one.word === 'load' && one.address === address && !one.isLet && !one.image);
    if (!hold) return;
    hold.image = new page.window.Image();
    hold.image.src = hold.source || '';
  }

  // ---- events

  /**
   * Whether it is the browser's own event, or one that was held back.
   * @param {Event} event
   */
  isTrusted(event) {
    return event.isTrusted || this.released.has(event);
  }

  /**
   * A handler is registered at a target. An event of a target that is no element can be held back. Called by page/events/handlers.js.
   * @param {EventTarget} target
   * @param {string} type
   */
  watch(target, type) {
    if (!this.holds.length) return;
    const hold = this.asks('on');
    if (hold?.event && !hold.target) {
      hold.target = target;
      this.#listen(target, hold.event.type);
    }
    const own = findItem(this.holds, (one) => one.target === target && !one.isLet);
    if (own && own.event?.type !== type) this.#listen(target, type); // later events of the target wait until it is released
  }

  /**
   * The recorder's listener comes before those of the page.
   * @param {EventTarget} target
   * @param {string} type
   */
  #listen(target, type) {
    apply(this.natives.addEventListener, target, [type, (/** @type {Event} */ event) => { this.keepsEvent(event); }, true]);
  }

  /**
   * Whether an event is held back: it, or one before it at the same target. Its handlers do not run then. Called by page/events/capturing.js.
   * @param {Event} event
   */
  keepsEvent(event) {
    if (!this.holds.length || !event.isTrusted) return false;
    if (this.seen.has(event)) return false;
    const hold = findItem(this.holds, (one) => !one.isLet && this.#isHeldBy(one, event));
    this.seen.add(event);
    const { target } = event;
    if (!hold || !target) return false;
    event.stopImmediatePropagation();
    this.#keep(hold, { target, go: () => this.#release(target, event) });
    return true;
  }

  /**
   * Whether an event is the one that a replay holds, by its target and how many of its type came there; then also each further one at this target, so that
   * their order stays.
   * @param {import('../types').Held} hold
   * @param {Event} event
   */
  #isHeldBy(hold, event) {
    if (!hold.event) return false;
    const { type, nth, tag } = hold.event;
    if (hold.waiting.length && event.target === hold.waiting[0].target) return true;
    const isOfTarget = tag ? this.#isElement(hold.event, event.target) : event.target === hold.target;
    if (event.type !== type || !isOfTarget) return false;
    hold.met++;
    return hold.met === nth;
  }

  /** @param {{tag?: string, id?: string, source?: string}} wanted @param {any} target any target of events */
  #isElement({ tag, id, source }, target) {
    const { getAttribute } = this.natives;
    if (!target || target.nodeType !== 1) return false;
    if (target.localName !== tag || (apply(getAttribute, target, ['id']) || '') !== id) return false;
    return !source || sliceOf(apply(getAttribute, target, ['src']) || '', 0, 200) === source; // an element without a source might have got one
  }

  /**
   * Dispatches an event that was held back once more.
   * @param {EventTarget} target
   * @param {Event} event
   */
  #release(target, event) {
    const { dispatchEvent, initEvent } = this.natives;
    this.released.add(event);
    apply(initEvent, event, [event.type, event.bubbles, event.cancelable]); // it is stopped no more
    apply(dispatchEvent, target, [event]);
  }

  /**
   * Runs the callback of an observer, or holds it back with all later ones of the same observer. Called by page/tasks/observers.js.
   * @param {import('../types').Held|undefined} hold
   * @param {() => void} run
   */
  observed(hold, run) {
    if (!hold || hold.isLet) run();
    else this.#keep(hold, { go: run });
  }

  /**
   * If a transaction of a database is held back, one of the recorder's own locks its stores. It changes nothing. Called by page/tasks/connections.js.
   * @param {IDBDatabase} database
   * @param {string|ArrayLike<string>} stores
   */
  holdStores(database, stores) {
    const hold = this.holds.length ? this.asks('send') : undefined;
    if (!hold) return;
    const names = typeof stores === 'string' ? [stores] : joined(stores);
    if (!names.length) return;
    const store = apply(this.natives.transaction, database, [names, 'readwrite']).objectStore(names[0]);
    const again = () => {
      if (!hold.isLet) apply(this.natives.addEventListener, apply(this.natives.count, store, []), ['success', again]);
    };
    this.#keep(hold, { go() {} });
    again();
  }

  /** Releases a hold. Called by the driver. */
  letGo(/** @type {number} */ id) {
    const hold = findItem(this.holds, (one) => one.id === id);
    if (!hold || hold.isLet) return;
    const { waiting } = hold;
    hold.isLet = true;
    hold.waiting = [];
    each(waiting, (one) => one.go());
  }

  // ---- the script elements at which the parser waits, which are not of the page

  /** Whether a node is such an element. Called by page/document/tree.js. */
  isHold(/** @type {Node} */ node) {
    const element = /** @type {Element} */ (node);
    return this.isActive && element.localName === 'script' && apply(this.natives.hasAttribute, element, ['data-er-hold']);
  }

  /** Such an element has done its work. Called by page/helpers/runs.js. */
  removeHold(/** @type {Element} */ script) {
    apply(this.natives.remove, script, []);
  }
}

export { Steering };
