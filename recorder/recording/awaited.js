'use strict';
// What a page has scheduled (timeouts, frames, messages), by its log, and until when it is waited for. If none of it is due, a quiet page needs no long wait.
/* global document, window */

/**
 * A name in the log, as far as it matters here.
 * @typedef {{kind: string, number?: number|string, why?: string, tag?: string, method?: string}} Name
 */

const SCHEDULES = /^(?:early )?(set|every|ask|post) (\d+)(?: (\d+))?/;
const STARTS = /^(timer|tick|anim|message) (\d+)/;
/** @type {{[record: string]: string}} the note that scheduled an action, by the action's record */
const SCHEDULED_BY = { timer: 'set', tick: 'every', anim: 'ask', message: 'post' };
/** A frame or a message comes within so many milliseconds, an idle callback within a longer time. */
const SOON = 100;
const IDLE = 1500;
/** What has not come so many milliseconds after its time was cancelled: the page has answered since. */
const LATE = 150;
/** Objects whose events come from the network, from the user, or from what is seen otherwise. Any other one can send an event at any time, as a worker. */
const SENDS_NOTHING = /^(Window|(HTML|XML)?Document|DocumentFragment|ShadowRoot|HTML\w+|SVG\w+|XMLHttpRequest(Upload)?|MediaQueryList|AbortSignal|Performance|Screen|ScreenOrientation|VisualViewport|FontFaceSet|MessagePort|History|Navigation|EventTarget|Object)$/;
const SENDING_REQUEST = /^(EventSource|WebSocket|FileReader|IDB)/;

/** Made by session.js; rest.js asks it. */
class Awaited {
  /** @param {import('../trace/intake.js').Intake} log of a run that is under way */
  constructor(log) {
    this.log = log;
    /** How much of the log was read. */
    this.lines = 0;
    this.names = 0;
    /** @type {Map<string, {from: number, until: number}>} when what was scheduled comes, by its keyword and number */
    this.due = new Map();
    /** @type {Map<string, number>} how many milliseconds the turns of an interval take, by its number */
    this.delays = new Map();
    /** Whether the page has something that can send an event at any time. */
    this.isSent = false;
  }

  /**
   * Reads what is new in the log, as of a time. Called by session.js.
   * @param {number} now
   */
  read(now) {
    const { entries, names } = this.log;
    for (; this.lines < entries.length; this.lines++) this.readLine(entries[this.lines].text, now);
    for (; this.names < names.length; this.names++) this.readName(/** @type {Name} */ (names[this.names]), now);
  }

  /**
   * Takes a line of the log: what it schedules is awaited, until a line begins it. `now` is in milliseconds.
   * @param {string} text
   * @param {number} now
   */
  readLine(text, now) {
    const [, keyword, number, delay] = SCHEDULES.exec(text) || [];
    if (keyword) {
      if (keyword === 'every') this.delays.set(number, Number(delay));
      this.expect(`${keyword} ${number}`, now, keyword === 'set' || keyword === 'every' ? Number(delay) : SOON);
      return;
    }
    const [, record, of] = STARTS.exec(text) || [];
    if (!record) return;
    const key = `${SCHEDULED_BY[record]} ${of}`;
    const delayOfTurn = record === 'tick' && this.due.has(key) ? this.delays.get(of) || 0 : 0;
    if (delayOfTurn > 0) this.expect(key, now, delayOfTurn);
    else this.due.delete(key);
  }

  /**
   * Something is due after a delay.
   * @param {string} key
   * @param {number} now
   * @param {number} delay
   * @param {number} [late]
   */
  expect(key, now, delay, late = LATE) {
    this.due.set(key, { from: now + delay, until: now + delay + late });
  }

  /**
   * A fact can say that something comes without a note of its own: an idle callback, an object or a request that can report at any time.
   * @param {Name} name
   * @param {number} now
   */
  readName({ kind, number, why, tag, method }, now) {
    if (kind === 'interval' && why === 'requestIdleCallback' && this.due.has(`every ${number}`)) this.expect(`every ${number}`, now, 0, IDLE);
    if (kind === 'element' && /^[A-Z]/.test(tag || '') && !SENDS_NOTHING.test(tag || '')) this.isSent = true;
    if (kind === 'request' && SENDING_REQUEST.test(method || '')) this.isSent = true;
  }

  /**
   * Whether something can come until a time. Called by rest.js.
   * @param {number} time
   * @param {number} now
   */
  mayComeUntil(time, now) {
    this.read(now);
    for (const [key, { from, until }] of this.due) {
      if (until < now) this.due.delete(key); // cancelled
      else if (from < time + LATE) return true;
    }
    return this.isSent;
  }
}

/**
 * Runs in the page, in a world of its own: how far it is scrolled, or null if something moves, plays or loads by itself. An animation without an end does
 * not count, as it would never be over.
 */
function placeAtRest() {
  const documents = [document];
  /** @type {NodeListOf<HTMLIFrameElement|HTMLFrameElement>} */
  const frames = document.querySelectorAll('iframe,frame');
  for (const frame of frames) {
    try {
      if (frame.contentDocument) documents.push(frame.contentDocument);
    } catch {
      // a frame of another origin
    }
  }
  /** @param {Animation} animation */
  const isMoving = ({ playState, effect }) => playState === 'running' && !!effect && Number.isFinite(Number(effect.getComputedTiming().endTime));
  /** @param {HTMLMediaElement} media */
  const isPlaying = (media) => !media.paused && !media.ended;
  /** @param {Document} one */
  const isAtRest = (one) => {
    /** @type {NodeListOf<HTMLMediaElement>} */
    const media = one.querySelectorAll('video,audio');
    return !one.getAnimations().some(isMoving) && ![...media].some(isPlaying) && one.fonts.status !== 'loading';
  };
  return documents.every(isAtRest) ? `${window.scrollX} ${window.scrollY}` : null;
}

const PLACE_AT_REST = `(${placeAtRest})()`;

module.exports = { Awaited, PLACE_AT_REST };
