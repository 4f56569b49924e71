'use strict';
// Answers requests for files of the folder that is served. No such request goes on to the network, whatever fails here.

const { isKept } = require('./kept-answers.js');
const { Unserved } = require('./unserved.js');
const { withoutHash } = require('../../common/request-address.js');

/** @typedef {import('./paused.js').Paused} Paused */

/** An interceptor: `Responses` calls `passRequest` for each request that is paused. */
class FolderAnswers {
  /**
   * @param {import('../folder.js').Folder} folder
   * @param {import('./page-steps.js').PageSteps} steps
   * @param {import('./copies.js').Copies} copies
   * @param {{kept?: import('./kept-answers.js').KeptAnswers|null, answers?: import('./kept-answers.js').AnswersOfRun|null}} memory what keeps the answers, and
   *   those of the recorded run, which its replays get also if the files have changed
   */
  constructor(folder, steps, copies, { kept = null, answers = null }) {
    this.kept = kept;
    this.answers = answers;
    this.folder = folder;
    this.steps = steps;
    this.copies = copies;
    /**
     * The addresses of files that are not there.
     * @type {string[]}
     */
    this.failures = [];
    this.unserved = new Unserved(folder);
    /**
     * How many other requests were refused, by the reason.
     * @type {Map<string, number>}
     */
    this.refused = new Map();
  }

  /**
   * Answers a request for a file of the folder.
   * @param {Paused} event
   */
  async passRequest(event) {
    const { url } = event.request;
    if (!this.folder.has(url)) return false;
    const answer = this.answers?.take(event) || this.read(event);
    const ownHeaders = [{ name: 'cache-control', value: 'no-store' }];
    if (answer.location) {
      this.steps.expectRedirect(event);
      ownHeaders.push({ name: 'location', value: answer.location });
    }
    if (answer.status === 404) this.failures.push(withoutHash(url));
    const isUnserved = !this.steps.isOfPage(event) && this.unserved.note(event, answer);
    if (answer.refused && !isUnserved) this.refused.set(answer.refused, (this.refused.get(answer.refused) || 0) + 1);
    await this.copies.fulfill(event, answer.status, ownHeaders, answer.type, answer.body);
    return true;
  }

  /**
   * The answer of the folder, which is kept for replays.
   * @param {Paused} event
   */
  read(event) {
    const { url, headers = {} } = event.request;
    const isPage = event.resourceType === 'Document';
    const answer = this.folder.answer(url, { accept: headers.Accept || headers.accept || (isPage ? 'text/html' : '') });
    if (this.kept && isKept(event)) this.kept.expect(event)({ ...answer, headers: [], latency: 0 });
    return answer;
  }
}

module.exports = { FolderAnswers };
