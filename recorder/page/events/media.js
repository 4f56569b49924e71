// Events of media elements (video, audio): they come in later tasks, after who chose what is played, or after the call that plays it, pauses it or moves in it.
// `loadedmetadata`, `canplay`, `play`, `playing`, `pause`, `ended`, `seeked`, `volumechange`.

import { each } from '../core/lists.js';
import { replaceMethod, replaceProperty } from '../core/replacing.js';
import { Map, Set, WeakMap, apply, getOwnPropertyDescriptor } from '../core/taken.js';
import { isMedia } from '../core/things.js';

/** Those of one cause that come in this order, whatever else happens. */
const MEDIA_IN_ORDER = ['emptied', 'loadstart', 'loadedmetadata', 'loadeddata', 'canplay', 'canplaythrough', 'play', 'playing', 'ended'];
const OF_LOADING = new Set(['emptied', 'loadstart', 'loadedmetadata', 'loadeddata', 'canplay', 'canplaythrough', 'progress', 'suspend', 'stalled',
  'durationchange', 'resize', 'abort', 'error']);
const OF_PLAYING = new Set(['play', 'playing', 'waiting', 'timeupdate', 'pause', 'ended']);
/** What a change of a property queues. */
const CHANGES = new Map([['volume', 'volumechange'], ['muted', 'volumechange'], ['playbackRate', 'ratechange'], ['defaultPlaybackRate', 'ratechange']]);

/** @typedef {import('./queued.js').Cause} Cause */

/** One for each document: `page.media`. */
class Media {
  /** @param {import('../types').Page} page */
  constructor(page) {
    this.page = page;
    this.recording = page.recording;
    /**
     * By element: who chose what is played.
     * @type {WeakMap<HTMLMediaElement, import('./played.js').Loading>}
     */
    this.loading = new WeakMap();
    /**
     * By element: whose call plays it.
     * @type {WeakMap<HTMLMediaElement, import('./played.js').Playing>}
     */
    this.playing = new WeakMap();
    const { prototype } = page.window.HTMLMediaElement;
    this.paused = /** @type {(this: HTMLMediaElement) => boolean} */ (getOwnPropertyDescriptor(prototype, 'paused')?.get);
    this.ended = /** @type {(this: HTMLMediaElement) => boolean} */ (getOwnPropertyDescriptor(prototype, 'ended')?.get);
  }

  start() {
    const owner = this.page.window.HTMLMediaElement.prototype;
    this.#replaceSources(owner);
    this.#replacePlaying(owner);
    this.#replaceSeeking(owner);
    CHANGES.forEach((type, name) => this.#replaceChange(owner, name, type));
  }

  /** @param {HTMLMediaElement} element */
  #isPaused(element) {
    return apply(this.paused, element, []);
  }

  /**
   * Whether an element plays, or has played to its end: then it is paused before its last `timeupdate` comes. Called by played.js.
   * @param {HTMLMediaElement} element
   */
  plays(element) {
    return !this.#isPaused(element) || apply(this.ended, element, []);
  }

  // ---- causes

  /**
   * Something else is to be played: what was to come of the former is dropped by the browser. Called by page/document/attributes.js and page/document/tree.js.
   * @param {HTMLMediaElement} element
   */
  noteLoading(element) {
    const moment = this.recording.moment();
    this.loading.set(element, { moment, isOfSeveral: true, isUnseen: !moment });
  }

  /**
   * The running code has started to play: the events of playing come after it.
   * @param {HTMLMediaElement} element
   */
  #notePlaying(element) {
    const moment = this.recording.moment();
    const cause = moment ? { moment, isOfSeveral: true } : undefined;
    if (cause) this.playing.set(element, cause);
    else this.playing.delete(element);
    return cause;
  }

  /**
   * Expects events at a media element, whose cause is the running code; without a running action nothing is expected.
   * @param {HTMLMediaElement} element
   * @param {string[]} types
   */
  #expect(element, ...types) {
    const moment = this.recording.moment();
    each(types, (type) => this.page.queued.note(element, type, moment));
  }

  /**
   * What caused an event of a media element, or undefined. Called by queued.js.
   * @param {Event} event
   * @param {HTMLMediaElement} element
   */
  causeOf(event, element) {
    const { type } = event;
    if (type === 'timeupdate' && !this.#isPaused(element)) return this.playing.get(element);
    const noted = this.page.queued.takeNoted(event, element);
    if (noted) return noted;
    if (OF_PLAYING.has(type)) return this.#playingOf(type, element);
    return OF_LOADING.has(type) ? this.#loadingOf(element) : undefined;
  }

  /**
   * A second `play` without a call is the user's.
   * @param {string} type
   * @param {HTMLMediaElement} element
   */
  #playingOf(type, element) {
    const cause = this.playing.get(element);
    if (type !== 'play' || !cause) return cause;
    if (cause.hasBegun) this.playing.delete(element);
    cause.hasBegun = true;
    return this.playing.get(element);
  }

  /**
   * What the page's text chose comes after the element alone.
   * @param {HTMLMediaElement} element
   * @returns {import('./played.js').Loading}
   */
  #loadingOf(element) {
    const known = this.loading.get(element);
    if (known) return known;
    const loading = { moment: null, isOfSeveral: true };
    this.loading.set(element, loading);
    return loading;
  }

  // ---- calls

  /**
   * Replaces what sets a source or loads it, of an interface of media elements.
   * @param {any} owner its members differ by interface
   */
  #replaceSources(owner) {
    const media = this;
    each(['src', 'srcObject'], (name) => replaceProperty(owner, name, (native) => ({
      set(value) {
        if (isMedia(this)) media.noteLoading(this);
        apply(native.set, this, [value]);
      },
    })));
    replaceMethod(owner, 'load', (native) => function load() {
      media.noteLoading(this);
      return apply(native, this, arguments);
    });
  }

  /**
   * Hooks `play` and `pause`.
   * @param {any} owner its members differ by interface
   */
  #replacePlaying(owner) {
    const media = this;
    replaceMethod(owner, 'play', (native) => function play() {
      const cause = isMedia(this) && media.#isPaused(this) ? media.#notePlaying(this) : undefined;
      const promise = apply(native, this, arguments);
      if (cause) media.page.played.notePromise(promise, cause);
      return promise;
    });
    replaceMethod(owner, 'pause', (native) => function pause() {
      if (isMedia(this) && !media.#isPaused(this)) media.#expect(this, 'timeupdate', 'pause');
      return apply(native, this, arguments);
    });
  }

  /**
   * Of two calls before the end of the first there is one end.
   * @param {any} owner its members differ by interface
   */
  #replaceSeeking(owner) {
    const media = this;
    const seek = (/** @type {HTMLMediaElement} */ element) => {
      media.#expect(element, 'seeking', 'timeupdate');
      media.page.queued.noteAgain(element, 'seeked', media.recording.moment());
      media.#loadingOf(element).isMoved = true;
    };
    replaceProperty(owner, 'currentTime', (native) => ({
      set(value) {
        if (isMedia(this)) seek(this);
        apply(native.set, this, [value]);
      },
    }));
  }

  /**
   * Hooks a property whose change queues an event, as `volume`.
   * @param {object} owner
   * @param {string} name
   * @param {string} type what a change queues
   */
  #replaceChange(owner, name, type) {
    const media = this;
    replaceProperty(owner, name, (native) => ({
      set(value) {
        const before = apply(native.get, this, []);
        apply(native.set, this, [value]);
        if (apply(native.get, this, []) !== before) media.#expect(this, type);
      },
    }));
  }
}

export { MEDIA_IN_ORDER, Media };
