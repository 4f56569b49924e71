// What is played comes after what loaded it: `playing`, `timeupdate` and `ended` of a media element after the `canplay` of its source, and reactions at the
// promise of `play()` after `playing`. Usual in players of videos, which store the length at `loadedmetadata`.

import { joined } from '../core/lists.js';
import { Set, apply } from '../core/taken.js';
import { comesBefore } from '../recording/order.js';

/** What the browser queues before it plays a source, in this order. */
const BEFORE_PLAYING = new Set(['emptied', 'loadstart', 'loadedmetadata', 'loadeddata', 'canplay']);
/** What a source is needed for. */
const NEEDS_SOURCE = new Set(['playing', 'timeupdate', 'ended']);
/** What comes before the promise of `play()` is fulfilled. */
const BEFORE_PROMISE = new Set(['play', 'playing']);

/** @typedef {import('../types').Moment} Moment */
/** @typedef {import('./queued.js').Cause} Cause */
/**
 * Who chose what is played, which might be code that was not seen; and the end of the last event before its first `canplay`, and of the last one with this.
 * A further `canplay`, after a stall or a seek, says nothing.
 * @typedef {Cause & {hasData?: Moment, loaded?: Moment, isLoaded?: boolean, isMoved?: boolean, isUnseen?: boolean}} Loading
 */
/**
 * Whose call plays it: whether its `play` event has come, the end of its first `playing`, and what its promise comes after.
 * @typedef {Cause & {hasBegun?: boolean, began?: Moment, promise?: import('../tasks/promises.js').Several}} Playing
 */

/** One for each document: `page.played`. */
class Played {
  /** @param {import('../types').Page} page */
  constructor(page) {
    this.page = page;
    this.recording = page.recording;
  }

  /**
   * A call begins to play, and returns a promise. Called by media.js.
   * @param {object} promise
   * @param {Playing} playing
   */
  notePromise(promise, playing) {
    playing.promise = { moments: [], isByOne: false, why: 'play()', isIfFulfilled: true };
    this.page.promises.several.set(promise, playing.promise);
  }

  /**
   * An event of a media element begins. Called by queued.js.
   * @param {import('./dispatches.js').EventDispatch} dispatch
   * @param {HTMLMediaElement} element
   * @param {Cause|undefined} cause if it is known
   */
  order(dispatch, element, cause) {
    const { event: { type } } = dispatch;
    const { media } = this.page;
    const loading = /** @type {Loading|undefined} */ (media.loading.get(element));
    const playing = /** @type {Playing|undefined} */ (media.playing.get(element));
    if (loading && loading === cause && BEFORE_PLAYING.has(type)) this.#atEnd(dispatch, (end) => noteLoaded(loading, type, end));
    if (playing && playing === cause && BEFORE_PROMISE.has(type)) this.#atEnd(dispatch, (end) => notePlayed(playing, type, end));
    if (!loading || !NEEDS_SOURCE.has(type)) return;
    if (type === 'timeupdate') this.#orderUpdate(dispatch, element, loading, cause);
    else if (this.#isOf(loading, cause)) addMoments(dispatch, [loading.loaded]);
    if (type === 'playing') loading.isLoaded = true;
  }

  /**
   * The position changes: it does so also because a user moves it, by the controls of the element, before `canplay`.
   * @param {import('./dispatches.js').EventDispatch} dispatch
   * @param {HTMLMediaElement} element
   * @param {Loading} loading
   * @param {Playing|undefined} cause
   */
  #orderUpdate(dispatch, element, loading, cause) {
    const { media, elements, queued } = this.page;
    if (!cause || cause !== media.playing.get(element) || !media.plays(element) || queued.expects(element, 'timeupdate')) return;
    if (!this.#isOf(loading, cause)) return;
    addMoments(dispatch, elements.attribute(element, 'controls') === null ? [loading.loaded, cause.began] : [loading.hasData]);
  }

  /**
   * Whether what is played is known to be this source: its first one, or one that was always chosen before the call.
   * @param {Loading} loading
   * @param {Cause|undefined} cause of what is played
   */
  #isOf(loading, cause) {
    if (!loading.moment) return !loading.isUnseen;
    return !!cause?.moment && comesBefore(cause.moment.event, loading.moment.event);
  }

  /**
   * @param {import('../types').NewDispatch} dispatch
   * @param {(end: Moment) => void} note
   */
  #atEnd(dispatch, note) {
    const { whenClosed } = dispatch;
    dispatch.whenClosed = () => {
      if (whenClosed) apply(whenClosed, dispatch, []);
      note(this.recording.lastMoment());
    };
  }
}

/**
 * @param {Loading} loading
 * @param {string} type
 * @param {Moment} end
 */
function noteLoaded(loading, type, end) {
  if (loading.isLoaded || (type === 'canplay' && loading.isMoved)) return;
  loading.loaded = end;
  if (type === 'canplay') loading.isLoaded = true;
  else loading.hasData = end;
}

/**
 * @param {Playing} playing
 * @param {string} type
 * @param {Moment} end
 */
function notePlayed(playing, type, end) {
  if (playing.began) return;
  if (playing.promise) playing.promise.moments[playing.promise.moments.length] = end;
  if (type === 'playing') playing.began = end;
}

/**
 * @param {import('../types').NewDispatch} dispatch
 * @param {(Moment|undefined)[]} added
 */
function addMoments(dispatch, added) {
  dispatch.moments = joined(dispatch.moments || [], added);
  dispatch.why = dispatch.why || 'what loaded it';
}

export { Played };
