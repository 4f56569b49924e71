// The lines of source around a place, with the place itself marked.

import { make } from './elements.js';
import { model } from './model.js';

const LINES_AROUND = 2; // excerpts.js takes as many

/**
 * The lines around one place of a race.
 * Called by races.js.
 * @param {string|null} key
 * @param {string} title
 */
function sourceBox(key, title) {
  const box = make('figure', { class: 'source' });
  const excerpt = key === null ? undefined : model.excerpts[key];
  box.append(make('figcaption', {}, excerpt ? `${title} ${model.files[excerpt.file]}:${excerpt.line}` : `${title} no place is known`));
  if (!excerpt) return box;
  const lines = model.lines[excerpt.file];
  const code = make('pre');
  for (let number = excerpt.line - LINES_AROUND; number <= excerpt.line + LINES_AROUND; number++) {
    if (lines[number] !== undefined) code.append(lineBox(number, lines[number], number === excerpt.line ? excerpt : null));
  }
  if (code.childNodes.length) box.append(code);
  return box;
}

/**
 * A line with its number; in that of the place, the word is marked.
 * @param {number} number
 * @param {string} text
 * @param {import('../types').Excerpt|null} excerpt of the line that has the place
 */
function lineBox(number, text, excerpt) {
  const line = make('div', { class: excerpt ? 'line place' : 'line' }, make('span', { class: 'number' }, String(number)));
  line.append(...(excerpt ? markWord(excerpt.own ?? text, excerpt.column) : [text]));
  return line;
}

/**
 * A line with the word marked that begins at a column; if none does, one character.
 * @param {string} text
 * @param {number} column
 */
function markWord(text, column) {
  const [word] = /** @type {RegExpExecArray} */ (/^(?:[\w$.]+|<[\w-]+|.)?/.exec(text.slice(column - 1)));
  return [text.slice(0, column - 1), make('mark', {}, word), text.slice(column - 1 + word.length)];
}

export { sourceBox };
