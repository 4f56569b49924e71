'use strict';
// What the browser does for an event of a user that no handler takes, by the element's tag in the page's source: a link works without its handler.

const { shown } = require('../common/shown.js');
const { attributeOf } = require('./element-labels.js');

/** An address that leads somewhere: also to a place in the page, and not to its top. */
const LEADS = /^(?!#?$|#top$|javascript:)./i;
/** Events that come along with a click at an element. */
const WITH_CLICK = /^(?:mouse|pointer)(?:down|up)$|^touch(?:start|end)$|^focus(?:in)?$/;
/** What is before the last part of a path; and what is after a path. */
const FOLDERS = /^.*\/(?=.)/;
const AFTER_PATH = /[?#].*$/;
/** Characters of an address. */
const LONGEST = 40;

/**
 * The rest of the line in the page's source from the tag of an element on; '' if the place of the tag is unknown. Called by element-words.js.
 * @param {import('../races/words.js').Words} words @param {string|number} number
 */
function sourceOf(words, number) {
  const place = words.placeOfElement(number);
  if (!place) return '';
  const [file, line, column] = place;
  return (words.sources.linesOf(file)[line] || '').slice(column - 1);
}

/**
 * The element for which a number is, and its tag in lower case.
 * @param {import('../races/words.js').Words} words @param {string|number} number
 * @returns {{number: string|number, tag: string}}
 */
function elementOf(words, number) {
  const { tag = '', standsFor } = words.names.elements[number] || {};
  return standsFor ? elementOf(words, standsFor) : { number, tag: tag.toLowerCase() };
}

/**
 * The address to which an element leads, if it is a link; '' for one that only code uses.
 * @param {import('../races/words.js').Words} words @param {string|number} number
 */
function addressOf(words, number) {
  const { number: own, tag } = elementOf(words, number);
  const address = tag === 'a' || tag === 'area' ? attributeOf(sourceOf(words, own), tag, 'href') : '';
  return LEADS.test(address) ? address : '';
}

/**
 * Whether an event is the click at a link, or comes along with it. Called by list/looks.js.
 * @param {import('../races/words.js').Words} words @param {string|number} number of the target @param {string} type
 * @returns {''|'click'|'part'}
 */
function linkOf(words, number, type) {
  const part = type === 'click' ? 'click' : WITH_CLICK.test(type) ? 'part' : '';
  return part && addressOf(words, number) ? part : '';
}

/**
 * What the browser does for an event that no handler takes, as the end of a sentence; '' if nothing, or this is unknown. Called by element-words.js.
 * @param {import('../races/words.js').Words} words @param {string|number} number of the target @param {string} type of the event
 */
function withoutHandler(words, number, type) {
  if (type === 'submit' && elementOf(words, number).tag === 'form') return 'sends the form';
  const address = type === 'click' ? addressOf(words, number) : '';
  if (!address) return '';
  const to = address.startsWith('#') ? address : address.replace(AFTER_PATH, '').replace(FOLDERS, '');
  return `follows the link${to && to.length <= LONGEST ? ` to ${shown(to)}` : ''}`;
}

module.exports = { linkOf, sourceOf, withoutHandler };
