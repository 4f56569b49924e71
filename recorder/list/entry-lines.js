'use strict';
// An entry of the list in lines, a long one wrapped, as compilers print what they find: the place first, then what goes wrong; the two sides; what else is
// known of it. Used by outputs.js.

const { withoutCommands } = require('../common/shown.js');

/** @typedef {import('./entries.js').Entry} Entry */
/**
 * How lines are printed: with colors, and to which width; a first line is wrapped only on a terminal.
 * @typedef {{hasColor: boolean, width: number, isTerminal: boolean}} Style
 */

const WIDEST = 100;
const INDENT = '    ';
const LONGEST_PADDED = 34;
/**
 * Only what can be read on dark and on light terminals: of the usual palettes yellow has as little contrast as 1.7 on white, and faint text 1.9. Red has at
 * least 3 on all, enough for bold text.
 * @type {{[name: string]: [start: string, end: string]}}
 */
const CODES = { bold: ['\u001b[1m', '\u001b[22m'], harm: ['\u001b[1;31m', '\u001b[22;39m'] };

/**
 * The style of a stream. `NO_COLOR` is that of no-color.org.
 * @param {{isTTY?: boolean, columns?: number}} stream
 * @param {NodeJS.ProcessEnv} environment
 * @param {string} color `auto`, `always` or `never`
 * @returns {Style}
 */
function styleOf(stream, environment, color = 'auto') {
  const isTerminal = !!stream.isTTY;
  const isWanted = isTerminal && !environment.NO_COLOR && environment.TERM !== 'dumb';
  return { isTerminal, hasColor: color === 'auto' ? isWanted : color === 'always', width: Math.min(WIDEST, (isTerminal && stream.columns) || WIDEST) };
}

/** @param {Style} style @param {string} name @param {string} text */
const painted = ({ hasColor }, name, text) => (hasColor && text ? CODES[name].join(text) : text);

/**
 * The line before the problems of a section.
 * @param {string} part @param {Style} style
 */
const sectionLine = (part, style) => painted(style, 'bold', `-- ${part}`);

/**
 * Lines of words, of which no line but one of a single long word is wider.
 * @param {string} text @param {number} width @param {string} indent of the lines after the first
 */
function wrapped(text, width, indent) {
  /** @type {string[]} */
  const lines = [];
  let line = /^ */.exec(text)?.[0] || '';
  for (const word of text.trim().split(' ')) {
    if (line.trim() && line.length + 1 + word.length > width) {
      lines.push(line);
      line = indent + word;
    } else line += line.trim() ? ` ${word}` : word;
  }
  return [...lines, line];
}

/**
 * The place, the sentence and the pattern: the pattern at the right end if there is room, else after the sentence.
 * @param {Entry} entry @param {Style} style
 */
function headLines({ place, sentence, look, part }, style) {
  const text = `${place}  ${sentence}`;
  const gap = Math.max(2, style.width - text.length - look.length);
  const isOneLine = text.length + 2 + look.length <= style.width || !style.isTerminal;
  const [first, ...rest] = isOneLine ? [text] : wrapped(text, style.width, INDENT);
  const colored = painted(style, 'bold', place) + first.slice(place.length);
  const pattern = part.startsWith('loses') || part.startsWith('may') ? painted(style, 'harm', look) : look;
  if (isOneLine) return [colored + ' '.repeat(gap) + pattern];
  const last = rest[rest.length - 1] ?? first;
  const isRoom = last.length + 4 + look.length <= style.width;
  const lines = [colored, ...rest];
  if (isRoom) return [...lines.slice(0, -1), `${lines[lines.length - 1]}  [${pattern}]`];
  return [...lines, `${INDENT}[${pattern}]`];
}

/**
 * One line for each side, in columns; what runs there comes in a line of its own if there is no room.
 * @param {Entry} entry @param {Style} style
 */
function sideLines({ sides }, style) {
  const widthOf = (/** @type {'verb'|'what'|'place'} */ name) => Math.min(LONGEST_PADDED, Math.max(...sides.map((side) => side[name].length)));
  const widths = { verb: widthOf('verb'), what: widthOf('what'), place: widthOf('place') };
  return sides.flatMap((side) => {
    const { verb, what, place } = side;
    const start = `${INDENT}${verb.padEnd(widths.verb)}  ${what.padEnd(widths.what)}  ${place.padEnd(widths.place)}`;
    const end = [side.actor, side.also].filter(Boolean).join(' ');
    if (!end) return [start.trimEnd()];
    if (start.length + 2 + end.length <= style.width) return [`${start}  ${end}`];
    return [start.trimEnd(), ...wrapped(INDENT.repeat(2) + end, style.width, INDENT.repeat(2))];
  });
}

/**
 * An entry: head, sides, details, and the stable name last, which a build needs.
 * @param {Entry} entry
 * @param {Style} style
 */
function entryLines(entry, style) {
  const details = entry.details.flatMap(([label, text]) => wrapped(`${INDENT}${label}: ${text}`, style.width, INDENT.repeat(2)));
  const name = `${INDENT}${entry.name} (for races.known)${entry.more ? `${entry.more.startsWith('in all') ? ';' : ','} ${entry.more}` : ''}`;
  return [...headLines(entry, style), ...sideLines(entry, style), ...details, name];
}

/**
 * The texts of an entry without anything that controls a terminal.
 * @param {Entry} entry @returns {Entry}
 */
function harmless(entry) {
  const sides = entry.sides.map((side) => ({ ...side, verb: withoutCommands(side.verb), what: withoutCommands(side.what), place: withoutCommands(side.place), actor: withoutCommands(side.actor), also: withoutCommands(side.also) }));
  return { ...entry, place: withoutCommands(entry.place), sentence: withoutCommands(entry.sentence), sides, details: entry.details.map(([label, text]) => [label, withoutCommands(text)]) };
}

/** @param {Entry} entry @param {Style} style */
const linesOfEntry = (entry, style) => entryLines(harmless(entry), style);

module.exports = { linesOfEntry, sectionLine, styleOf, wrapped };
