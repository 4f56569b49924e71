'use strict';
// A folder of texts by their keys, which outlive the process: `eventracer` in XDG_CACHE_HOME, or in ~/.cache. It is only a shortcut: what cannot be written is
// not there, and what is damaged is as if it were not there. With ER_NO_CACHE=1 nothing is read and nothing written. If it is too big, the oldest entries are
// deleted.

const fs = require('node:fs');
const os = require('node:os');
const path = require('node:path');
const { digestOf } = require('./digest.js');
const { writeWhole } = require('./whole-file.js');

/** The texts take at most so many bytes; the ones that were not used for longest go first. */
const MOST_BYTES = 256 << 20;
/** What a process left that was ended while it wrote is removed after so many milliseconds. */
const LONGEST_WRITING = 3600000;
const OWNER_ONLY = 0o700;
const DIGEST = /^[0-9a-f]{64}$/;
const LENGTH_OF_DIGEST = 64;

/**
 * The folder, or null if nothing is to be kept.
 * @param {NodeJS.ProcessEnv} environment
 */
function folderOf(environment) {
  if (environment.ER_NO_CACHE === '1') return null;
  const given = environment.XDG_CACHE_HOME;
  return path.join(given && path.isAbsolute(given) ? given : path.join(os.homedir(), '.cache'), 'eventracer');
}

/** Made by instrument/kept-marks.js. */
class CacheFolder {
  /** @param {string|null} folder null: nothing is kept */
  constructor(folder = folderOf(process.env), mostBytes = MOST_BYTES) {
    this.folder = folder;
    this.mostBytes = mostBytes;
  }

  /**
   * The file of a key. A key is a digest, so it names no other place.
   * @param {string} key
   */
  fileOf(key) {
    return this.folder !== null && DIGEST.test(key) ? path.join(this.folder, key) : null;
  }

  /**
   * The text of a key, or null. A file begins with the digest of the rest: one that is damaged is removed.
   * @param {string} key
   */
  read(key) {
    const file = this.fileOf(key);
    if (file === null) return null;
    try {
      const all = fs.readFileSync(file, 'utf8');
      const text = all.slice(LENGTH_OF_DIGEST);
      if (digestOf(key + text) !== all.slice(0, LENGTH_OF_DIGEST)) {
        fs.rmSync(file, { force: true });
        return null;
      }
      const now = new Date();
      fs.utimesSync(file, now, now);
      return text;
    } catch {
      return null; // it is not there, or another process has removed it meanwhile
    }
  }

  /**
   * Keeps a text. Other processes see it whole or not at all.
   * @param {string} key
   * @param {string} text
   */
  write(key, text) {
    const file = this.fileOf(key);
    if (file === null || this.folder === null) return;
    try {
      fs.mkdirSync(this.folder, { recursive: true, mode: OWNER_ONLY });
      writeWhole(file, digestOf(key + text) + text);
    } catch {
      this.folder = null; // a disk that is full, or a home that cannot be written: nothing is kept
    }
  }

  /** Removes what was not used for longest, until the rest is small enough, and what was never finished. */
  trim() {
    let left = 0;
    for (const { file, size, time } of this.files().sort((a, b) => b.time - a.time)) {
      left += size;
      const isUnfinished = path.basename(file).startsWith('.') && Date.now() - time > LONGEST_WRITING;
      if (left > this.mostBytes || isUnfinished) fs.rmSync(file, { force: true });
    }
  }

  /** The files of the folder, which other processes change meanwhile. */
  files() {
    const { folder } = this;
    if (folder === null) return [];
    try {
      return fs.readdirSync(folder).flatMap((name) => {
        const file = path.join(folder, name);
        const found = fs.statSync(file, { throwIfNoEntry: false });
        return found?.isFile() ? [{ file, size: found.size, time: found.mtimeMs }] : [];
      });
    } catch {
      return [];
    }
  }
}

module.exports = { CacheFolder };
