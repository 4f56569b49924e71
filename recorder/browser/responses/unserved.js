'use strict';
// The scripts and the pages of frames that a page requests, and that its folder does not have. Their races are not found, so the list and a line on standard
// error name them.

const { OUTSIDE } = require('../folder.js');
const { shown } = require('../../common/shown.js');

/** @typedef {import('./paused.js').Paused} Paused */
/** @typedef {import('../folder.js').Answer} Answer */

/** How many files are named. */
const MOST_NAMED = 2;

/** Made by FolderAnswers, for each recording. */
class Unserved {
  /** @param {import('../folder.js').Folder} folder */
  constructor(folder) {
    this.folder = folder;
    /**
     * By the path in the folder, whether a file is a link to another place.
     * @type {Map<string, boolean>}
     */
    this.files = new Map();
  }

  /**
   * Takes note of a request, if it is for a script or a page of a frame, and the folder does not have the file. Returns whether it is. Called by
   * folder-answers.js.
   * @param {Paused} event a request, not for the page itself
   * @param {Pick<Answer, 'status'|'refused'>} answer
   */
  note({ resourceType, request: { url } }, { status, refused }) {
    const isMissing = status === 404 && (!refused || refused === OUTSIDE);
    if (!isMissing || !['Script', 'Document'].includes(resourceType)) return false;
    this.files.set(new URL(url).pathname.slice(1), refused === OUTSIDE);
    return true;
  }

  /** The first files by name, in brackets, and what to do: no folder has more files than `/`. */
  named() {
    const names = [...this.files.keys()].slice(0, MOST_NAMED).map(shown);
    const cure = this.folder.realRoot === '/' ? '' : `: --root DIR, with a folder that has ${this.files.size > 1 ? 'them' : 'it'}`;
    return `(${[...names, ...this.files.size > MOST_NAMED ? ['..'] : []].join(', ')})${cure}`;
  }

  /** What is missing, in words for the list, or ''. Called by browser/responses.js. */
  inWords() {
    const { size } = this.files;
    return size ? `${size} file${size > 1 ? 's' : ''} of the page ${size > 1 ? 'were' : 'was'} not served ${this.named()}` : '';
  }

  /** What is missing, as lines of what was not recorded. Called by browser/responses.js. */
  lines() {
    const { size } = this.files;
    const links = [...this.files.values()].filter((isLink) => isLink).length;
    const ofThem = links ? `, ${links} of them ${links > 1 ? 'links to other places' : 'a link to another place'}` : '';
    return size ? [`scripts and pages of frames, not served: ${size}${ofThem} ${this.named()}`] : [];
  }
}

module.exports = { Unserved };
