'use strict';
// er_page --list FILE and --sitemap URL: records the pages of a list, several at once and each in a process of its own, and lists the races of all. Many URLs,
// crawled from a file or a sitemap. A call that was interrupted goes on with the pages that are left.

const { fork } = require('node:child_process');
const fs = require('node:fs');
const os = require('node:os');
const path = require('node:path');
const { CommandFault } = require('./command.js');
const { credentialsOf, withoutCredentials } = require('./common/address.js');
const { eachAtOnce } = require('./common/at-once.js');
const { digestOf } = require('./common/digest.js');
const { printError } = require('./common/output.js');
const { STATUS } = require('./common/status.js');
const { stoppable } = require('./common/stoppable.js');
const { makeFolder } = require('./common/whole-file.js');
const { slugOf } = require('./driven/trace-folder.js');
const { Known } = require('./list/known.js');
const { reportLoads } = require('./loads.js');
const { AVOIDED } = require('./options/avoided.js');
const { endAsking } = require('./races/program.js');
const { argumentsOf } = require('./recording/origin.js');
const { readSitemap } = require('./sitemap.js');
const { besides } = require('./view.js');

/** @typedef {import('./recording/options.js').CommandOptions} CommandOptions */
/** @typedef {import('./record-one.js').Recorded} Recorded */
/**
 * A page of the list: its trace, the arguments of its recording, and their key.
 * @typedef {{address: string, file: string, args: string[], key: string}} Page
 */

/** So many digits of its digest tell pages with one file name apart. */
const DIGITS = 8;
const ONE = path.join(__dirname, 'record-one.js');

/**
 * The addresses of a list: one in each line; a line that starts with # is a comment. Each address counts once.
 * @param {string} text
 */
const addressesOf = (text) => [...new Set(text.split(/\r?\n/).map((line) => line.trim()).filter((line) => line && !line.startsWith('#')))];

/**
 * The addresses in the file of --list, one in each line.
 * @param {string} file
 */
function readList(file) {
  let text;
  try {
    text = fs.readFileSync(file, 'utf8');
  } catch (fault) {
    const { code, message } = /** @type {NodeJS.ErrnoException} */ (fault);
    throw new CommandFault(code === 'ENOENT' ? `--list: there is no file ${file}` : `--list: ${file} cannot be read: ${message}`, STATUS.usage);
  }
  const addresses = addressesOf(text);
  if (!addresses.length) throw new CommandFault(`${file} has no address`, STATUS.usage);
  return addresses;
}

/**
 * The options of a recording as arguments of er_record, except what servers require.
 * @param {CommandOptions} options
 */
function wordsOf(options) {
  const { clicks, avoided, redacted, root, fallback, ignoresCertificateErrors } = options;
  const own = [...root ? [`--root=${root}`] : [], ...fallback ? [`--fallback=${fallback}`] : [], ...ignoresCertificateErrors ? ['--ignore-certificate-errors'] : []];
  const avoids = avoided === AVOIDED ? [] : [`--avoid=${avoided ? avoided.source : 'none'}`];
  return [...argumentsOf({ ...options, isLive: false }), '--clicks', String(clicks), ...avoids, ...redacted.map((one) => `--redact=${one}`), ...own];
}

/**
 * What servers require, as arguments of er_record.
 * @param {Pick<CommandOptions, 'headers'|'credentials'|'cookies'|'storageStateFile'>} options
 */
function secretsOf({ headers, credentials, cookies, storageStateFile }) {
  const user = credentials ? [`--http-credentials=${credentials.user}:${credentials.password}`] : [];
  const state = storageStateFile ? [`--storage-state=${storageStateFile}`] : [];
  return [...headers.map(([name, value]) => `--header=${name}:${value}`), ...cookies.map(([name, value]) => `--cookie=${name}=${value}`), ...state, ...user];
}

/**
 * The key, which is written, has nothing of what servers require.
 * @param {string} given
 * @param {string} folder
 * @param {CommandOptions} options
 * @returns {Page}
 */
function pageOf(given, folder, options) {
  const address = withoutCredentials(given);
  const name = `${slugOf(address)}-${digestOf(address).slice(0, DIGITS)}`;
  const words = wordsOf(options);
  const secrets = secretsOf({ ...options, credentials: credentialsOf(given) || options.credentials });
  const file = path.join(folder, name, 'page.trace');
  return { address, file, args: [...words, ...secrets, '--', address, file], key: digestOf(JSON.stringify([address, words])) };
}

/**
 * How an earlier recording of a page ended, if it has these options.
 * @param {Page} page
 * @returns {Recorded|null}
 */
function recordedOf({ file, key }) {
  try {
    /** @type {Recorded} */
    const recorded = JSON.parse(fs.readFileSync(besides(file, '.recorded.json'), 'utf8'));
    const isThere = fs.existsSync(file) && fs.existsSync(besides(file, '.names.json'));
    return recorded.format === 1 && recorded.key === key && isThere ? recorded : null;
  } catch {
    return null; // it was not recorded, or not to its end
  }
}

/** @param {Page} page */
function isComplete(page) {
  const recorded = recordedOf(page);
  return !!recorded && !recorded.failed && !recorded.incomplete;
}

/** Made by `listPages`, for all pages of a list. */
class ManyPages {
  /** @param {Page[]} pages */
  constructor(pages) {
    this.pages = pages;
    this.isStopped = false;
    this.done = 0;
    /** @type {Set<import('node:child_process').ChildProcess>} */
    this.running = new Set();
  }

  /** Ends the recordings that run, and starts no other one. */
  stop() {
    this.isStopped = true;
    this.running.forEach((child) => child.kill('SIGINT'));
  }

  /**
   * Records a page, and prints what its recorder says when it has ended.
   * @param {Page} page
   */
  async record({ address, file, args, key }) {
    if (this.isStopped) return;
    makeFolder(path.dirname(file));
    fs.rmSync(besides(file, '.recorded.json'), { force: true });
    const env = { ...process.env, ER_PAGE_ARGUMENTS: JSON.stringify([key, ...args]) }; // other users can read arguments
    const child = fork(ONE, [], { env, stdio: ['ignore', 'ignore', 'pipe', 'ipc'] });
    this.running.add(child);
    let said = '';
    child.stderr?.setEncoding('utf8').on('data', (piece) => { said += piece; });
    await new Promise((resolve) => { child.on('error', resolve).on('close', resolve); });
    this.running.delete(child);
    this.done++;
    printError(`er_page: ${this.done} of ${this.pages.length}: ${address}\n${said.trimEnd()}`);
  }

  /** @param {number} jobs how many at once */
  async recordAll(jobs) {
    await stoppable(() => this.stop(), () => eachAtOnce(this.pages, jobs, (page) => this.record(page)));
  }
}

/**
 * The status of pages that could not be recorded, or not completely, after a line about each of them.
 * @param {Page[]} pages
 */
function statusOf(pages) {
  let status = STATUS.ok;
  for (const page of pages) {
    const recorded = recordedOf(page);
    const own = recorded ? recorded.failed || recorded.incomplete : STATUS.failed;
    if (own) printError(`er_page: ${recorded && !recorded.failed ? 'not recorded completely' : 'not recorded'}: ${page.address} (status ${own})`);
    status = Math.max(status, own);
  }
  return status;
}

/**
 * The addresses of the list or the sitemap, and the folder for their recordings.
 * @param {CommandOptions} options
 */
async function pagesOf(options) {
  const { list, sitemap } = options;
  if (list) return { folder: `${path.basename(list).replace(/\.\w+$/, '')}.races`, addresses: readList(list) };
  const address = withoutCredentials(sitemap || '');
  const addresses = await readSitemap(address, { headers: options.headers, credentials: options.credentials || credentialsOf(sitemap || '') });
  if (!addresses.length) throw new CommandFault(`${address} has no address of its origin`, STATUS.noPage);
  return { folder: `${slugOf(address)}.races`, addresses };
}

/**
 * Records the pages of a list, except those that an earlier call has recorded completely, and lists the races of all. Returns the status. Called by
 * page-races.js.
 * @param {CommandOptions} options
 */
async function listPages(options) {
  const known = Known.of(options);
  const { folder, addresses } = await pagesOf(options);
  const credentials = options.credentials || credentialsOf(options.sitemap || '');
  const pages = addresses.map((address) => pageOf(address, folder, { ...options, credentials }));
  makeFolder(folder);
  const due = options.isFresh ? pages : pages.filter((page) => !isComplete(page));
  if (due.length < pages.length) printError(`er_page: ${pages.length - due.length} of ${pages.length} pages are recorded already; --fresh records them again`);
  const many = new ManyPages(due);
  await many.recordAll(options.jobs || Math.max(1, Math.floor(os.cpus().length / 2)));
  if (many.isStopped) {
    printError('er_page: stopped; the same call goes on with the pages that are left');
    return STATUS.stopped;
  }
  const failed = statusOf(pages);
  const files = pages.filter((page) => recordedOf(page)?.failed === STATUS.ok).map(({ file }) => file);
  if (!files.length) return failed;
  const status = await stoppable(() => endAsking(STATUS.stopped), () => reportLoads(files, known, options, { command: 'er_page', folder, page: folder }));
  return status || failed;
}

module.exports = { listPages, addressesOf, pageOf };
