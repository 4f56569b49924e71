'use strict';
// What a recorded run received, kept for its replays: each of these gets the same bytes after the same time, and no server gets the request again. How much is
// kept has limits.

const { inAnyRun } = require('../../common/request-address.js');

/**
 * @typedef {import('./paused.js').Paused} Paused
 * @typedef {import('./paused.js').Header} Header
 */
/**
 * An answer to a request: `latency` is for how many milliseconds the server was waited for.
 * @typedef {{status: number, headers: Header[], type: string, body: Buffer, latency: number, location?: string, refused?: string}} Answer
 */

/** Bytes of all bodies that are kept, and of one of them: what is beyond is requested again. */
const MOST_KEPT_BYTES = 64 * 1024 * 1024;
const LARGEST_KEPT = 8 * 1024 * 1024;
/** Requests whose answers come whole, and are the same if they are requested in the same way. */
const KEPT_TYPES = new Set(['Document', 'Script', 'Stylesheet', 'Image', 'Font', 'XHR', 'Fetch', 'Manifest', 'Other']);
/** An answer that does more than to bring its bytes, or of which a request got a part. */
const OWN_EFFECT = /^(set-cookie|clear-site-data|refresh|content-range)$/i;

/** @param {Paused} event */
const keyOf = ({ request: { method, url }, resourceType }) => `${method} ${resourceType} ${inAnyRun(url)}`;

/**
 * Whether an answer to a request is kept. Called by folder-answers.js and keep-answers.js.
 * @param {Paused} event
 */
function isKept({ request: { method, headers = {} }, resourceType }) {
  return method === 'GET' && KEPT_TYPES.has(resourceType) && !Object.keys(headers).some((name) => /^range$/i.test(name));
}

/**
 * Whether an answer of a server is kept: no step to another address, and nothing that the browser does besides. Called by keep-answers.js.
 * @param {Paused} event of a response
 */
function hasKeptAnswer({ responseStatusCode: status = 0, responseHeaders = [] }) {
  return status >= 200 && (status < 300 || status >= 400) && !responseHeaders.some(({ name }) => OWN_EFFECT.test(name));
}

/** Made by session.js for a run whose answers are kept. */
class KeptAnswers {
  constructor() {
    /**
     * By the request, in the order in which it came.
     * @type {Map<string, (Answer|null)[]>}
     */
    this.answers = new Map();
    this.bytes = 0;
  }

  /**
   * Keeps a place for the answer to a request, in the order of the requests. Returns a function that takes the answer, and returns whether it is kept.
   * @param {Paused} event
   * @returns {(answer: Answer) => boolean}
   */
  expect(event) {
    const key = keyOf(event);
    const all = this.answers.get(key) || [];
    this.answers.set(key, all);
    const index = all.push(null) - 1;
    return (answer) => {
      const same = all.find((one) => one?.body.equals(answer.body))?.body;
      if (!same && (answer.body.length > LARGEST_KEPT || this.bytes + answer.body.length > MOST_KEPT_BYTES)) return false;
      this.bytes += same ? 0 : answer.body.length;
      all[index] = { ...answer, body: same || answer.body };
      return true;
    };
  }

  /** The answers for one run, each taken once. */
  forRun() {
    return new AnswersOfRun(this.answers);
  }
}

/** Made by `KeptAnswers.forRun` for each run of a replay. */
class AnswersOfRun {
  /** @param {Map<string, (Answer|null)[]>} answers */
  constructor(answers) {
    this.answers = answers;
    /** @type {Map<string, number>} how often each request came */
    this.counts = new Map();
  }

  /**
   * The answer to a request that the recorded run made equally often before; null if there is none.
   * @param {Paused} event
   */
  take(event) {
    if (!isKept(event)) return null;
    const key = keyOf(event);
    const count = this.counts.get(key) || 0;
    this.counts.set(key, count + 1);
    return this.answers.get(key)?.[count] || null;
  }
}

/**
 * The bytes of a body as the protocol has it; null if it is a text that may have lost some. Called by keep-answers.js.
 * @param {{body: string, base64Encoded: boolean}} answer
 * @param {string} type of the content
 */
function bytesOf({ body, base64Encoded }, type) {
  if (base64Encoded) return Buffer.from(body, 'base64');
  const bytes = Buffer.from(body);
  const isWhole = /charset=["']?utf-?8/i.test(type) ? !body.includes('\ufffd') : bytes.length === body.length; // one byte for each character
  return isWhole ? bytes : null;
}

module.exports = { KeptAnswers, AnswersOfRun, isKept, hasKeptAnswer, bytesOf, MOST_KEPT_BYTES, LARGEST_KEPT };
