'use strict';
// A folder as a web site: what a small file server would answer. The browser's requests are answered on their way, so nothing listens. The content type (MIME
// type) by the ending of a file's name, `index.html` of a folder, status 404; `--fallback`; a file that is too large is refused. What a folder lacks:
// responses/unserved.js.

const fs = require('node:fs');
const os = require('node:os');
const path = require('node:path');
const { pathToFileURL, fileURLToPath } = require('node:url');
const { credentialsOf, withoutCredentials } = require('../common/address.js');

/**
 * @typedef {import('../common/address.js').Credentials} Credentials
 * @typedef {{status: number, type: string, body: Buffer, location?: string, refused?: string}} Answer `refused` says why a file that is there is not served
 * @typedef {{fallback?: string|null, page?: string|null}} FolderOptions `fallback` is the file for pages that are no file: the routes of a single-page
 *   application; `page` is the file that was asked for by name, which is served whatever its name is
 */

/** @type {Map<string, string>} */
const TYPES = new Map(Object.entries({
  '.html': 'text/html', '.htm': 'text/html', '.xhtml': 'application/xhtml+xml', '.js': 'text/javascript', '.mjs': 'text/javascript', '.cjs': 'text/javascript',
  '.css': 'text/css', '.json': 'application/json', '.map': 'application/json', '.webmanifest': 'application/manifest+json', '.svg': 'image/svg+xml',
  '.png': 'image/png', '.gif': 'image/gif', '.jpg': 'image/jpeg', '.jpeg': 'image/jpeg', '.webp': 'image/webp', '.avif': 'image/avif', '.ico': 'image/x-icon',
  '.woff': 'font/woff', '.woff2': 'font/woff2', '.ttf': 'font/ttf', '.otf': 'font/otf', '.txt': 'text/plain', '.xml': 'text/xml', '.wasm': 'application/wasm',
  '.pdf': 'application/pdf', '.mp4': 'video/mp4', '.webm': 'video/webm', '.mp3': 'audio/mpeg', '.ogg': 'audio/ogg',
}));
/** The origin of the pages of a folder: one that the browser takes for secure (service workers, clipboard), and that no server gets a request for. */
const ORIGIN = 'http://localhost';
/** In bytes. An answer goes to the browser as one text. */
const LARGEST_FILE = 256 * 1024 * 1024;
/** The only name with a dot at its start that is served. */
const WELL_KNOWN = '.well-known';
/** Why a link that leaves the folder is not served. */
const OUTSIDE = 'files of the folder that are links to other places';
/** A page, as a request for one names it. */
const ACCEPTS_PAGE = /\btext\/html\b/i;

/** Why a file that is there is not served. */
class Refusal extends Error {}

const notFound = () => ({ status: 404, type: 'text/plain', body: Buffer.from('not found\n') });

/** @param {string} inside a way from a folder */
const isOutside = (inside) => inside === '..' || inside.startsWith('../') || path.isAbsolute(inside);
/** @param {string} inside */
const isHidden = (inside) => inside.split('/').some((name) => name.startsWith('.') && name !== WELL_KNOWN && name !== '');

/**
 * The bytes of a regular file. Opening does not wait for the other end of a pipe.
 * @param {string} file
 */
function readRegular(file) {
  const opened = fs.openSync(file, fs.constants.O_RDONLY | fs.constants.O_NONBLOCK);
  try {
    const stat = fs.fstatSync(opened);
    if (!stat.isFile()) throw new Refusal('files of the folder that are no regular files');
    if (stat.size > LARGEST_FILE) throw new Refusal(`files of the folder with more than ${LARGEST_FILE / 1024 / 1024} MB`);
    return fs.readFileSync(opened);
  } finally {
    fs.closeSync(opened);
  }
}

/**
 * Where a file is, links followed.
 * @param {string} file
 */
function realPath(file) {
  try {
    return fs.realpathSync(file);
  } catch {
    return file; // what is not there has no links
  }
}

/** Made for `--root` or a page that is a file. */
class Folder {
  /**
   * @param {string} root
   * @param {FolderOptions} options
   */
  constructor(root, { fallback = null, page = null } = {}) {
    this.root = path.resolve(root);
    this.realRoot = realPath(this.root);
    this.fallback = fallback;
    this.page = page;
  }

  /**
   * The address under which the browser requests a file of the folder.
   * @param {string} file
   */
  addressOf(file, search = '') {
    const inside = path.relative(this.root, path.resolve(file));
    if (isOutside(inside)) throw new Error(`${file} is not in ${this.root}`);
    return ORIGIN + pathToFileURL(`/${inside}`).pathname + search;
  }

  /**
   * The file that is at an address. Called by list/places.js.
   * @param {string} address
   */
  pathOf(address) {
    const file = path.join(this.root, decodeURIComponent(new URL(address).pathname));
    return file.endsWith('/') ? path.join(file, 'index.html') : file;
  }

  /**
   * Whether an address is one of the folder's.
   * @param {string} address
   */
  has(address) {
    return address === ORIGIN || address.startsWith(`${ORIGIN}/`);
  }

  /**
   * What the folder answers to a request (responses/folder-answers.js, local-server.js). Each fault is a 404, a Refusal with its reason. A page that is not
   * there gets the file `fallback`.
   * @param {string} address
   * @param {{accept?: string}} request what the request accepts
   * @returns {Answer}
   */
  answer(address, { accept = '' } = {}) {
    const { pathname, search } = new URL(address);
    try {
      return this.find(pathname, search) || (this.fallback && ACCEPTS_PAGE.test(accept) && this.read(path.join(this.root, this.fallback))) || notFound();
    } catch (fault) {
      return { ...notFound(), ...(fault instanceof Refusal ? { refused: fault.message } : {}) };
    }
  }

  /**
   * What is at a path, or null if nothing is.
   * @param {string} pathname
   * @param {string} search
   * @returns {Answer|null}
   */
  find(pathname, search) {
    const file = this.fileAt(pathname);
    const stat = file === null ? undefined : fs.statSync(file, { throwIfNoEntry: false });
    if (!file || !stat) return null;
    if (!stat.isDirectory()) return this.read(file);
    if (!pathname.endsWith('/')) return { status: 302, type: 'text/plain', body: Buffer.alloc(0), location: `${ORIGIN}${pathname}/${search}` };
    const index = path.join(file, 'index.html');
    return fs.existsSync(index) ? this.read(index) : null;
  }

  /**
   * The file of a path of an address; it need not be there.
   * @param {string} pathname
   * @returns {string|null} null if it is no path of a file, as with an escaped slash
   */
  fileAt(pathname) {
    try {
      return path.join(this.root, fileURLToPath(`file://${pathname}`));
    } catch {
      return null; // a path that no file can have
    }
  }

  /**
   * Only what is inside of the folder after all links, and has no name with a dot at its start, by its own path and by the real one. Called by
   * instrument/kept-marks.js.
   * @param {string} file
   * @returns {Answer}
   */
  read(file) {
    const real = fs.realpathSync(file);
    const inside = path.relative(this.realRoot, real);
    if (isOutside(inside)) throw new Refusal(OUTSIDE);
    if (file !== this.page && [inside, path.relative(this.root, file)].some(isHidden)) throw new Refusal('files of the folder with a dot at the start of their name');
    const type = TYPES.get(path.extname(file).toLowerCase()) || 'application/octet-stream';
    return { status: 200, type, body: readRegular(real) };
  }
}

/** An address of the folder that ends with a slash, before a query or what a page inside of it is called. */
const OF_INDEX = /^(http:\/\/localhost\/(?:[^?#\s]*\/)?)(?=$|[?#\s])/;
/**
 * The address of the file that answers: readers know a page by its file. Called by trace/named-files.js and trace/names.js.
 * @param {string} address
 */
const fileAddress = (address) => address.replace(OF_INDEX, '$1index.html');

// ---- what a user's address means

/**
 * Whether a folder has files that no page should read: a home, its downloads, /tmp. Such a folder is served with a warning.
 * @param {string} folder
 */
function isPersonal(folder) {
  const real = realPath(folder);
  const homes = [os.homedir(), process.env.HOME || ''].filter(Boolean);
  return real === '/' || [...homes, os.tmpdir(), '/tmp', '/var/tmp', ...homes.map((home) => path.join(home, 'Downloads'))].some((one) => realPath(one) === real)
    || ['/home', '/Users'].includes(path.dirname(real));
}

/**
 * What the page may read, if it is served with a folder that is not its own.
 * @param {string} folder
 */
const warningOf = (folder) => (isPersonal(folder)
  ? `the page can read every file in ${folder} (except names that begin with a dot): move it into a folder of its own, or set --root`
  : null);

/**
 * The file that a user means by a page: a `file:` address, a path, or a path with a query or a fragment, if no file has the whole name.
 * @param {string} given
 * @returns {{file: string, search: string}}
 */
function fileOf(given) {
  if (/^file:/i.test(given)) return { file: fileURLToPath(given.replace(/[?#].*$/s, '')), search: new URL(given).search + new URL(given).hash };
  if (fs.existsSync(path.resolve(given))) return { file: path.resolve(given), search: '' };
  const [, name, search] = /** @type {RegExpExecArray} */ (/^([^?#]*)(.*)$/s.exec(given));
  return { file: path.resolve(name), search };
}

const OF_DATA = 'the scripts of a data: address are not instrumented, so its races are not found: put the page into a file';

/**
 * What a user's address means: a web address as it is, a file or `file:` address as one of a folder. `credentials` are those of the address,
 * which has none, and `warning` is for who started the recording. Called by page-races.js and recording/recorder.js.
 * @param {string} given
 * @param {string|null} [root]
 * @param {FolderOptions} [options]
 * @returns {{address: string, folder: Folder|null, credentials: Credentials|null, warning: string|null}}
 */
function resolveAddress(given, root, options) {
  if (/^(https?|data|about):/i.test(given)) {
    const warning = /^data:/i.test(given) ? OF_DATA : null;
    return { address: withoutCredentials(given), folder: root ? new Folder(root, options) : null, credentials: credentialsOf(given), warning };
  }
  const { file, search } = fileOf(given);
  const isFolder = fs.statSync(file, { throwIfNoEntry: false })?.isDirectory() === true;
  const own = isFolder ? file : path.dirname(file);
  const folder = new Folder(root || own, { ...options, page: isFolder ? null : file });
  const address = folder.addressOf(file);
  const warning = root || isFolder ? null : warningOf(own);
  return { address: `${isFolder && !address.endsWith('/') ? `${address}/` : address}${search}`, folder, credentials: null, warning };
}

module.exports = { Folder, resolveAddress, fileAddress, ORIGIN, OUTSIDE, LARGEST_FILE };
