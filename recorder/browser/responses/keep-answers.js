'use strict';
// Keeps what the servers of a recorded run answer (kept-answers.js), and answers the requests of its replays by it. A replay gets the recorded responses from
// memory. A request that the recorded run did not make (another address) goes to its server.

const { sleep } = require('../../common/time.js');
const { bytesOf, hasKeptAnswer, isKept, LARGEST_KEPT } = require('./kept-answers.js');
const { valueOf } = require('./paused.js');
const { requestText } = require('../changing.js');

/**
 * @typedef {import('./paused.js').Paused} Paused
 * @typedef {import('./kept-answers.js').Answer} Answer
 * @typedef {{take: (answer: Answer) => void, start: number, answer: Omit<Answer, 'body'>|null}} Awaited a request whose answer is to be kept
 */

/** Other addresses (`data:`, `blob:`) come from no server, so nothing is kept of them. */
const OF_SERVER = /^https?:/i;

/** Takes note of the answers of servers. Made by browser/responses.js. */
class KeepAnswers {
  /**
   * @param {import('../tab.js').Tab} tab
   * @param {import('./kept-answers.js').KeptAnswers} kept
   */
  constructor(tab, kept) {
    this.tab = tab;
    this.kept = kept;
    /** @type {Map<string, Awaited>} by the request's number in the network */
    this.awaited = new Map();
    /** @type {Map<string, string>} the requests without an answer that is kept, in words, by that number */
    this.lacking = new Map();
    tab.on('Network.loadingFinished', ({ requestId, encodedDataLength }) => this.takeBody(requestId, encodedDataLength));
    tab.on('Network.loadingFailed', ({ requestId }) => this.awaited.delete(requestId));
  }

  /** @param {Paused} event */
  passRequest(event) {
    const { networkId, requestId, request } = event;
    if (OF_SERVER.test(request.url)) this.lacking.set(networkId || requestId, requestText(request));
    if (networkId && isKept(event)) this.awaited.set(networkId, { take: this.takerOf(networkId, this.kept.expect(event)), start: Date.now(), answer: null });
    return false;
  }

  /**
   * What takes the answer to a request: once it is kept, a replay does not lack it.
   * @param {string} networkId
   * @param {(answer: Answer) => boolean} keep
   */
  takerOf(networkId, keep) {
    return (/** @type {Answer} */ answer) => {
      if (keep(answer)) this.lacking.delete(networkId);
    };
  }

  /**
   * Notes the head of a response that is awaited; its body comes later. It takes no response from the others in the chain.
   * @param {Paused} event
   */
  passResponse(event) {
    const awaited = this.awaited.get(event.networkId || '');
    const { responseStatusCode: status = 0, responseHeaders: headers = [] } = event;
    if (!awaited) return false;
    if (hasKeptAnswer(event)) awaited.answer = { status, headers, type: valueOf(headers, 'content-type'), latency: Date.now() - awaited.start };
    else this.awaited.delete(event.networkId || '');
    return false;
  }

  /**
   * The bytes of a page or a script, before it gets its marks (`passResponse` in copies.js). `takeBody` then finds nothing that is awaited. Called by
   * copies.js.
   * @param {Paused} event
   * @param {Buffer} body
   */
  takeText({ networkId = '' }, body) {
    const awaited = this.awaited.get(networkId);
    this.awaited.delete(networkId);
    if (awaited?.answer) awaited.take({ ...awaited.answer, latency: Date.now() - awaited.start, body });
  }

  /**
   * The bytes of what the browser got as it was.
   * @param {string} networkId
   * @param {number} length of what came, in bytes
   */
  async takeBody(networkId, length) {
    const { answer, take } = this.awaited.get(networkId) || {};
    this.awaited.delete(networkId);
    if (!answer || !take || length > LARGEST_KEPT) return;
    const found = await this.tab.send('Network.getResponseBody', { requestId: networkId }).catch(() => null); // the browser has it no more
    const body = found && bytesOf(/** @type {{body: string, base64Encoded: boolean}} */ (found), answer.type);
    if (body) take({ ...answer, body });
  }
}

/** Answers the requests that the recorded run made too. Made by browser/responses.js. */
class AnswerAgain {
  /**
   * @param {import('./kept-answers.js').AnswersOfRun} answers
   * @param {import('./copies.js').Copies} copies
   * @param {import('./paused.js').Holds|null} holds
   * @param {import('../folder.js').Folder|null} folder its requests are answered by FolderAnswers
   */
  constructor(answers, copies, holds, folder) {
    this.answers = answers;
    this.copies = copies;
    this.holds = holds;
    this.folder = folder;
  }

  /**
   * In a replay: answers from memory, after the time that the server took in the recorded run. False if the memory has no answer, so that the request is sent.
   * @param {Paused} event
   */
  async passRequest(event) {
    const answer = this.folder?.has(event.request.url) ? null : this.answers.take(event);
    if (!answer) return false;
    await sleep(answer.latency);
    if (this.holds?.isMet(event)) await this.holds.hold?.(event);
    await this.copies.answer(event, answer.status, answer.headers, answer.type, answer.body);
    return true;
  }
}

module.exports = { KeepAnswers, AnswerAgain };
