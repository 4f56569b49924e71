'use strict';
// What the list says of a problem: the sentence, the two sides with what else has the same two places, what a replay found, and the stable name. One entry of
// the printed report.

const { ASKED } = require('./callbacks.js');
const { OF_AGAIN, fixOfIdle, fixOfNone, fixOfSame, fixOfSeveral } = require('./fixes.js');
const { alsoByCall, callOf } = require('./registering-calls.js');
const { repliesOf } = require('./race-facts.js');
const { SameCauses } = require('./same-causes.js');
const { Sides, summaryOf } = require('./sides.js');
const { pathInFolder } = require('./places.js');
const { APART, HARMLESS, IDLE, SAME, UNCHANGED } = require('./patterns/table.js');

/**
 * @typedef {import('./listing.js').Listing} Listing
 * @typedef {import('./listing.js').Listed} Listed
 * @typedef {import('./problems.js').Problems} Problems
 * @typedef {import('./sides.js').Side} Side
 * @typedef {import('../browser/folder.js').Folder} Folder
 */
/**
 * A side with what its other races have in its place.
 * @typedef {Side & {also: string}} FullSide
 */
/**
 * `details` are further lines, each with its label.
 * @typedef {{place: string, sentence: string, look: string, part: string, sides: FullSide[], details: [label: string, text: string][], name: string, more: string}} Entry
 */

const BOTH = 'both orders came';
const IN_OTHER_ORDER = /[,;] (?:and )?in the other order .*$/;
/** The sum of the two orders. */
const BOTH_ORDERS = 3;
const MOST_NAMED = 3;
/** Sections of which no problem says that it was not replayed. */
const NOT_WANTED = new Set([APART, HARMLESS, IDLE]);
/** So many races of a problem are looked through for what else has the same two places. */
const MOST_RACES = 500;

/**
 * The first few texts, without the words at the start that all of them have; of what has the same words, with where it was requested.
 * @param {string} own
 * @param {string[]} texts
 */
function also(own, texts) {
  if (!texts.length) return '';
  const all = [own, ...texts];
  const short = all.map((text) => text.replace(ASKED, ''));
  const isUnique = new Set(short).size === all.length;
  const words = (isUnique ? short : all.map((text) => text.replace(ASKED, ' at $1'))).map((text) => text.split(' '));
  const shortest = Math.min(...words.map(({ length }) => length));
  let same = 0;
  while (same < shortest - 1 && words.every((some) => some[same] === words[0][same])) same++;
  const told = words.slice(1, 1 + MOST_NAMED).map((some) => some.slice(same).join(' '));
  return `(also ${told.join(', ')}${texts.length > MOST_NAMED ? ', ..' : ''})`;
}

/** Made by the list, and (`LoadEntries`) by that over many loads. */
class Entries {
  /** @param {Listing} listing @param {Folder|null} folder the folder that was served */
  constructor(listing, folder) {
    this.listing = listing;
    this.folder = folder;
    /** @type {Sides[]} by run */
    this.sides = [];
    /**
     * What a problem has in place of a verdict. Set by replay-command.js.
     * @type {(line: Listed) => string}
     */
    this.notReplayedWords = () => '';
    this.sameCauses = new SameCauses(this);
  }

  /**
   * The sides of the races of a run. Called by loads-run.js.
   * @param {number} run
   */
  sidesOf(run) {
    const problems = this.listing.runs[run];
    const fileOf = (/** @type {number} */ file) => pathInFolder(problems.names.files[file]?.address, this.folder);
    this.sides[run] = this.sides[run] || new Sides(problems, fileOf);
    return this.sides[run];
  }

  /**
   * What the list says of a problem, by its worst race. Called by loads-run.js.
   * @param {Listed} line
   */
  toldOf({ run, first, worst, look }) {
    return this.sidesOf(run).of(worst ?? first, look.look);
  }

  /**
   * The place of a problem's first line. Called by entry-places.js.
   * @param {Listed} line
   */
  placeOf(line) {
    return this.toldOf(line).place;
  }

  /**
   * The first line of a problem. Called by listing.js.
   * @param {Listed} line
   */
  summaryOf(line) {
    return summaryOf(this.toldOf(line));
  }

  /**
   * A usual change for a problem, and for the others of its entry. Called by listing.js.
   * @param {Listed} line @param {Listed[]} others
   */
  fixOf(line, others) {
    const part = this.listing.partOf(line);
    const { fix, sides } = this.toldOf(line);
    const own = part === IDLE ? fixOfIdle(fix, sides[1].event) : part === HARMLESS && line.look.comesAgain ? fixOfNone(OF_AGAIN, fix) : part === SAME ? fixOfSame(fix) : fix;
    return this.isOfSeveral(line, others) ? fixOfSeveral(own, others.map((one) => this.toldOf(one).fix)) : own;
  }

  /**
   * Whether the late handlers of an entry are for several elements.
   * @param {Listed} line @param {Listed[]} others
   */
  isOfSeveral(line, others) {
    if (line.look.look !== 'late') return false;
    const elementOf = (/** @type {Listed} */ one) => this.toldOf(one).sides[1].what;
    const isAlso = (/** @type {Listed} */ one) => one.worst === undefined && !!this.alsoOf(one)[1];
    return [line, ...others.filter((one) => one.look.look === 'late')].some((one) => elementOf(one) !== elementOf(line) || isAlso(one));
  }

  /**
   * The call that registers a late handler; '' if it is unknown.
   * @param {Listed} line
   */
  callOf({ run, first, worst }) {
    const { words, report } = this.listing.runs[run];
    return callOf(words, report.races[worst ?? first]);
  }

  /**
   * Called by listing.js.
   * @param {Listed} line
   * @param {Listed[]} others
   * @returns {Entry}
   */
  of(line, others) {
    const { sentence, place, sides } = this.toldOf(line);
    const { look, name } = line;
    const alsos = line.worst === undefined ? this.alsoOf(line) : ['', ''];
    const ofCall = look.look === 'late' ? others.filter((one) => one.look.look === 'late').map((one) => this.toldOf(one).sides[1]) : [];
    const byCall = ofCall.length ? alsoByCall(sides[1], ofCall) : '';
    return {
      place, sentence, look: look.name, part: this.listing.partOf(line), name, more: this.more(line, others), details: this.details(line, others),
      sides: sides.map((side, k) => ({ ...side, also: [alsos[k], k === 1 ? byCall : ''].filter(Boolean).join(' ') })),
    };
  }

  /**
   * What takes each side's place in the other races of a problem: what is at the place that is shown. Called by loads-run.js.
   * @param {Listed} line
   */
  alsoOf({ run, first, races, sites: [one, two], look }) {
    const { ofRaces, report } = this.listing.runs[run];
    const sides = this.sidesOf(run);
    const isTurned = (/** @type {number} */ race) => one !== two && ofRaces[race].sites[0] !== one;
    const leading = sides.leading(report.races[first], look.look);
    return [leading, 1 - leading].map((k) => {
      const [own, where] = [sides.actorOf(report.races[first], k), sides.whereOf(report.races[first], k)];
      const side = isTurned(first) ? 1 - k : k;
      /** @type {Set<string>} */
      const texts = new Set();
      for (const race of races.slice(0, MOST_RACES)) {
        const at = isTurned(race) ? 1 - side : side;
        if (sides.whereOf(report.races[race], at) === where) texts.add(sides.actorOf(report.races[race], at));
      }
      texts.delete(own);
      return also(own, [...texts]);
    });
  }

  /**
   * The event of a race that looks for handlers, as `click at button "Save"`; '' if there is none. Called by replay-results.js.
   * @param {number} run @param {number} race its index
   */
  eventOf(run, race) {
    const one = this.listing.runs[run].report.races[race];
    return [0, 1].map((k) => this.sidesOf(run).eventAt(one, k)?.words).find(Boolean) || '';
  }

  /**
   * The race that comes first, if the line has the pattern of another one.
   * @param {Listed} line
   */
  causeOf({ run, first, worst }) {
    return worst === undefined ? null : this.sidesOf(run).of(first, this.listing.runs[run].ofRaces[first].look.look);
  }

  /**
   * What the list says of a problem besides its sides.
   * @param {Listed} line @param {Listed[]} others @returns {Entry['details']}
   */
  details(line, others) {
    const cause = this.causeOf(line);
    const replay = this.listing.verdictOf(line);
    const seen = this.listing.seenInWords(line);
    /** @type {Entry['details']} */
    const all = [['cause', cause ? summaryOf(cause) : ''], this.sameCauses.of(line), ['recorded', this.recordedOf(line, others)],
      ['replayed', replay ? replay.sentence || replay.words : this.notReplayed(line)], ['runs', seen], ['fix', this.fixOf(line, others)]];
    return all.filter(([, text]) => text);
  }

  /**
   * Which of the two orders the recording had; if races of the entry came in both, nobody has to guess what the other order does. Called by listing.js.
   * @param {Listed} line @param {Listed[]} others
   */
  recordedOf(line, others) {
    const { look } = line;
    const alike = [line, ...others.filter((one) => one.look.look === look.look)];
    const isChanging = alike.some((one) => !one.look.isUnchanged);
    const here = isChanging ? look.here.replace(UNCHANGED, '') : look.here;
    const { recorded, turned } = this.toldOf(line);
    const isOneRun = this.listing.runs.length === 1; // of several runs another line has it
    if (!isOneRun || !alike.some((one) => one.worst === undefined && this.isInBothOrders(one))) return here || recorded;
    return [BOTH, here ? `here ${here.replace(IN_OTHER_ORDER, '')}` : turned].filter(Boolean).join('; ');
  }

  /**
   * Whether races of a problem came in both orders.
   * @param {Listed} line
   */
  isInBothOrders(line) {
    return line.orders.size > 1 || [...line.seen.values()].some(({ orders }) => orders === BOTH_ORDERS) || this.hasBothReplies(line);
  }

  /**
   * Whether of the replies of a problem some came in the order of their requests, and some did not. Called by loads-run.js.
   * @param {Listed} line
   */
  hasBothReplies({ run, races, look }) {
    if (look.look !== 'replies') return false;
    const { report } = this.listing.runs[run];
    return new Set(races.slice(0, MOST_RACES).map((race) => repliesOf(this.sidesOf(run), report.races[race])?.isInOrder)).size > 1;
  }

  /**
   * What a problem has in place of a verdict, if a reader might want one.
   * @param {Listed} line
   */
  notReplayed(line) {
    return NOT_WANTED.has(this.listing.partOf(line)) ? '' : this.notReplayedWords(line);
  }

  /**
   * How many races a line stands for, in words; of one problem besides its own.
   * @param {Listed} line @param {Listed[]} others
   */
  more(line, others) {
    const size = [line, ...others].reduce((sum, one) => sum + this.listing.size(one), 0);
    if (others.length) return `in all, ${others.length + 1} problems: ${size} races`;
    return size > 1 ? `and ${size - 1} more race${size > 2 ? 's' : ''}` : '';
  }
}

module.exports = { Entries };
