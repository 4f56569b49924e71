// Messages: `postMessage` of windows, of ports and of broadcast channels. Each message has a plain element, at which its listeners are handlers: in
// version 2 its sender makes it, so that the message comes after its sender and no rule joins it with another one. Also those of web workers, whose own code is
// not recorded.

import { each, findItem, hasItem, keep, takeFirst } from '../core/lists.js';
import { putConstructor, replaceConstructor, replaceMethod } from '../core/replacing.js';
import { Object, WeakMap, apply, isArray } from '../core/taken.js';
import { documentOf, isPlainObject } from '../core/things.js';

const tagOf = Object.prototype.toString;

/** @typedef {import('../types').PageWindow} PageWindow */
/** @typedef {import('./dispatches.js').EventDispatch} EventDispatch */

/** One for each document: `page.messages`. */
class Messages {
  /** @param {import('../types').Page} page */
  constructor(page) {
    this.page = page;
    this.recording = page.recording;
    /**
     * The last message of each frame that is not recorded.
     * @type {WeakMap<Element, import('./queued.js').Cause>}
     */
    this.foreign = new WeakMap();
    this.origin = page.window.origin;
  }

  /** Hooks `postMessage` of windows, channels and broadcasts; of workers it notes that one is there. */
  start() {
    const messages = this;
    const { window } = this.page;
    replaceMethod(window, 'postMessage', (native) => function postMessage() {
      const { 1: second } = arguments;
      const poster = messages.recording.takePoster() || messages;
      messages.#postTo(messages.#isForHere(second) ? [window] : [], window, arguments, () => poster.callHere(native, window, arguments));
    });
    this.#replaceChannel(window);
    this.#replaceBroadcasts(window);
    each(['Worker', 'SharedWorker'], (name) => replaceConstructor(window, name, () => messages.#noteWorker()));
    if (window.ServiceWorkerContainer) {
      replaceMethod(window.ServiceWorkerContainer.prototype, 'register', (native) => function register() {
        messages.#noteWorker();
        return apply(native, this, arguments);
      });
    }
  }

  /** The page makes or registers a worker, whose own code is not recorded. */
  #noteWorker() {
    const { recording } = this;
    recording.hasOtherSenders = true;
    if (!recording.isOver) recording.log.miss('workers');
  }

  /**
   * Each channel of a name gets the messages of the others.
   * @param {PageWindow} window
   */
  #replaceBroadcasts(window) {
    const messages = this;
    const { channels } = this.recording;
    if (!window.BroadcastChannel) return;
    replaceConstructor(window, 'BroadcastChannel', (made) => {
      channels[channels.length] = made;
      messages.#listen(made);
    });
    replaceMethod(window.BroadcastChannel.prototype, 'postMessage', (native) => function postMessage() {
      const others = keep(channels, (one) => one !== this && one.name === this.name);
      messages.#postTo(others, this.name, [], () => apply(native, this, arguments));
    });
  }

  /**
   * Hooks channels: of each port it is known which other one gets its messages.
   * @param {PageWindow} window
   */
  #replaceChannel(window) {
    const messages = this;
    const { peers } = this.recording;
    const Native = window.MessageChannel;
    function MessageChannel() {
      const channel = new Native();
      peers.set(channel.port1, channel.port2);
      peers.set(channel.port2, channel.port1);
      each([channel.port1, channel.port2], (port) => messages.#listen(port));
      return channel;
    }
    putConstructor(window, 'MessageChannel', MessageChannel);
    replaceMethod(window.MessagePort.prototype, 'start', (native) => function start() {
      messages.noteStart(this);
      return apply(native, this, []);
    });
    replaceMethod(window.MessagePort.prototype, 'postMessage', (native) => function postMessage() {
      const peer = peers.get(this);
      messages.#postTo(peer ? [peer] : [], peer, arguments, () => apply(native, this, arguments));
    });
  }

  // ---- posting

  /**
   * Calls a function of the browser: what this window's code calls. The `source` of a message is the window of the newest function on the stack.
   * @param {import('../types').Method} native
   * @param {PageWindow} receiver
   * @param {ArrayLike<any>} words
   */
  callHere(native, receiver, words) {
    return apply(native, receiver, words);
  }

  /**
   * A port hands out messages once it is started, whenever they were posted. Called by on-handlers.js.
   * @param {any} port a port, or another target of messages
   */
  noteStart(port) {
    const { starts, peers } = this.recording;
    const moment = peers.has(port) && !starts.has(port) && this.recording.moment();
    if (moment) starts.set(port, moment);
  }

  /**
   * Whether a message comes to this window that is posted to it for some origin.
   * @param {unknown} second the second argument of the call: the origin, or an object that has it
   */
  #isForHere(second) {
    const wanted = isPlainObject(second) ? second.targetOrigin : second;
    if (typeof wanted !== 'string' || wanted === '*' || wanted === '/') return true;
    try {
      return new this.page.natives.URL(wanted).origin === this.origin;
    } catch { // the call throws too
      return false;
    }
  }

  /**
   * A message that the browser refuses to post is no cause of a later one.
   * @param {object[]} receivers
   * @param {unknown} line messages with the same one keep their order in a replay
   * @param {ArrayLike<any>} words the arguments of the call, if ports can go with it
   * @param {() => void} send
   */
  #postTo(receivers, line, words, send) {
    const { recording } = this;
    /** @type {import('../types').Held|undefined} */
    let hold;
    /** @type {import('../types').PostedMessage[]} */
    const added = [];
    each(receivers, (receiver) => { hold = this.#post(receiver, words, added) || hold; });
    recording.steering.post(hold, line, () => {
      try {
        send();
      } catch (error) {
        each(receivers, (receiver) => recording.posted.set(receiver, keep(recording.posted.get(receiver) || [], (one) => !hasItem(added, one))));
        throw error;
      }
    });
  }

  /**
   * Records the call of `postMessage` or the like: its message is expected at the receiver.
   * @param {object} receiver
   * @param {ArrayLike<any>} words whatever the page passes
   * @param {import('../types').PostedMessage[]} added gets the message
   * @returns {import('../types').Held|undefined} what holds the message back in a replay
   */
  #post(receiver, words, added) {
    const { recording } = this;
    if (recording.isOver) return undefined;
    const message = recording.next('message');
    const standIn = recording.next('element');
    recording.noteAsking(`post ${message} ${this.page.number} ${standIn}`);
    recording.log.name('element', standIn, { why: 'a message', message });
    const waiting = recording.posted.get(receiver) || [];
    recording.posted.set(receiver, waiting);
    const posted = { message, standIn, sender: recording.isRunning() ? recording.running : null, ports: portsOf(words) };
    waiting[waiting.length] = posted;
    added[added.length] = posted;
    return recording.steering.asks('post');
  }

  // ---- what comes

  /**
   * Hears each message that comes to a port or a channel, before the page does, and also those to which nobody listens.
   * @param {EventTarget} receiver
   */
  #listen(receiver) {
    apply(this.page.natives.addEventListener, receiver, ['message', (/** @type {MessageEvent} */ event) => {
      if (event.isTrusted) this.#note(event, receiver);
    }, true]);
  }

  /**
   * A message comes. Those to one receiver come in the order of their posting; but others can post to a channel, and their calls are not seen.
   * @param {MessageEvent} event
   * @param {EventTarget} receiver
   */
  #note(event, receiver) {
    const { recording } = this;
    if (recording.isOver || recording.arrived.has(event)) return;
    if (recording.hasOtherSenders && hasItem(recording.channels, receiver)) return;
    const waiting = recording.posted.get(receiver);
    const posted = waiting && takeFirst(waiting);
    if (!posted) return;
    recording.arrived.set(event, posted);
    const { ports } = event;
    each(posted.ports, (port, k) => this.#move(port, ports[k]));
  }

  /**
   * Begins the dispatch of a message whose sender is recorded. Returns whether it is one. Called by dispatches.js.
   * @param {EventDispatch} dispatch
   */
  begin(dispatch) {
    const { target } = dispatch;
    const event = /** @type {MessageEvent} */ (dispatch.event);
    if (event.type !== 'message' || !this.recording.steering.isTrusted(event) || this.#isForeign(event)) return false;
    if (target === this.page.window) this.#note(event, target);
    const posted = this.recording.arrived.get(event);
    if (!posted) return false;
    const { message, standIn, sender } = posted;
    this.recording.begin(`message ${message} ${dispatch.number} ${standIn}`, 'begin', undefined, [sender]);
    dispatch.moments = [this.recording.starts.get(target)];
    dispatch.why = 'the start of the port';
    this.page.joins.tellOf(dispatch); // at once, so that the lookup of handlers comes after it too
    return true;
  }

  // ---- of frames that are not recorded

  /**
   * The window that has posted a message; a port and a worker have none.
   * @param {Event} event
   * @returns {Window|null}
   */
  #sourceOf(event) {
    return /** @type {Window|null} */ (apply(this.page.natives.source, /** @type {MessageEvent} */ (event), []));
  }

  /**
   * Whether a page of another origin has posted a message, whose call is not seen.
   * @param {Event} event
   */
  #isForeign(event) {
    const source = this.#sourceOf(event);
    return !!source && documentOf(/** @type {PageWindow} */ (source)) === null;
  }

  /**
   * A message of a frame that is not recorded comes after the frame was made, and after the one before. Called by queued.js.
   * @param {Event} event
   * @param {import('../types').Target} target
   * @returns {import('./queued.js').Cause|undefined}
   */
  causeOf(event, target) {
    const { page } = this;
    if (event.type !== 'message' || /** @type {unknown} */ (target) !== page.window || !this.#isForeign(event)) return undefined;
    const source = this.#sourceOf(event);
    const frames = /** @type {HTMLIFrameElement[]} */ (/** @type {unknown} */ (apply(page.natives.querySelectorAll, page.document.documentElement, ['iframe'])));
    const frame = findItem(frames, (one) => apply(page.natives.contentWindow, one, []) === source);
    if (!frame) return undefined;
    const cause = { moment: null, standIn: page.elements.standIn(frame, 'a message of it'), before: this.foreign.get(frame) };
    this.foreign.set(frame, cause);
    return cause;
  }

  /**
   * A port that goes with a message is another object where it arrives. What was posted to it meanwhile comes there.
   * @param {MessagePort} port
   * @param {MessagePort|undefined} arrived
   */
  #move(port, arrived) {
    const { peers, posted } = this.recording;
    const peer = peers.get(port);
    if (!peer || !arrived || arrived === port) return;
    peers.set(arrived, peer);
    peers.set(peer, arrived);
    const waiting = posted.get(port);
    if (waiting) posted.set(arrived, waiting);
    this.#listen(arrived);
  }
}

/**
 * The ports that go with a message, in the order in which they arrive.
 * @param {ArrayLike<any>} words the arguments of a call of `postMessage`
 * @returns {MessagePort[]}
 */
function portsOf({ 1: second, 2: third }) {
  const given = isArray(third) ? third : isArray(second) ? second : isPlainObject(second) ? second.transfer : null;
  return isArray(given) ? keep(given, (one) => apply(tagOf, one, []) === '[object MessagePort]') : [];
}

export { Messages };
