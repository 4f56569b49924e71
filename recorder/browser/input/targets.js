'use strict';
// Functions that run in the page: where a user can click. Each is sent as its text, with the functions of selectors.js. A point of the element at which no
// other element covers it; and which element the seed of `--clicks` chooses by chance.
/* eslint-env browser */

const { findAll } = require('./selectors.js');

/**
 * @typedef {import('./selectors.js').Where} Where
 * @typedef {{x: number, y: number}} Point
 * @typedef {Point & {isText: boolean, what: string, target: string, place: string, inside: Point}} Spot what a user may click: `target` and `place`
 *   are selectors, by an id and by its position alone, `inside` the place in it
 */

/**
 * Where the first element that a selector means can be clicked, or null. `inside` is the place in it that was clicked before. Called by browser/user-steps.js
 * and browser/user.js.
 * @param {Where} where
 * @param {Point|null} [inside]
 * @returns {Point|null}
 */
function findTarget(where, inside) {
  const [element] = findAll(where);
  if (!element) return null;
  const view = element.ownerDocument.defaultView || window;
  let box = element.getBoundingClientRect();
  if (box.top < 0 || box.bottom > view.innerHeight || box.left < 0 || box.right > view.innerWidth || view !== window) {
    element.scrollIntoView({ block: 'center', inline: 'center' });
    box = element.getBoundingClientRect();
  }
  if (box.width < 1) return null;
  const around = { x: 0, y: 0 };
  for (let frame = view.frameElement; frame; frame = frame.ownerDocument.defaultView?.frameElement || null) {
    const outer = frame.getBoundingClientRect();
    around.x += outer.left + frame.clientLeft;
    around.y += outer.top + frame.clientTop;
  }
  const boxes = [...element.getClientRects()].map(({ left, top, width, height }) => ({ x: left + width / 2, y: top + height / 2 }));
  /** @param {Point} point */
  const isHit = ({ x, y }) => {
    const hit = /** @type {Document|ShadowRoot} */ (element.getRootNode()).elementFromPoint(x, y);
    return element.contains(hit);
  };
  const usual = { x: box.left + Math.min(box.width / 2, 200), y: box.top + Math.min(box.height / 2, 100) };
  const found = inside ? [{ x: box.left + inside.x, y: box.top + inside.y }, ...boxes].find(isHit) || usual : usual;
  return { x: found.x + around.x, y: found.y + around.y };
}

/**
 * One of the things that a user may click, by the seed: first what reacts in view, then what is out of view, which is scrolled to; links to other pages last.
 * Called by browser/user.js.
 * @param {number} seed
 * @param {string|null} avoided the source of a regular expression: what has it in its text or in its names is not clicked
 * @param {string[]} left the addresses of links and the positions of what led to another page: it is not clicked again
 * @returns {Spot & {label: string, link: string}|null}
 */
function pickTarget(seed, avoided, left) {
  const SELECTOR = 'a[href],a[onclick],button,input,select,textarea,label,[onclick],[role=button],[role=tab],summary,[tabindex],li';
  const REACTS = 'button,input,select,textarea,summary,label,[onclick],[role],a[href^="#"],a[href^="javascript:"]';
  const MOST_SCROLLED = 20;
  const MOST_LOOKED_AT = 5000;
  const AT_ONCE = /** @type {ScrollBehavior} */ (/** @type {string} */ ('instant'));
  /**
   * By the next id above it, and by its position alone: a script may have set the id.
   * @param {Element|null} one
   * @param {boolean} isById
   * @returns {string}
   */
  const pathOf = (one, isById) => {
    if (!one || !one.parentElement) return 'html';
    if (isById && one.id && document.querySelectorAll(`#${CSS.escape(one.id)}`).length === 1) return `#${CSS.escape(one.id)}`;
    const same = [...one.parentElement.children].filter((other) => other.localName === one.localName);
    return `${pathOf(one.parentElement, isById)} > ${CSS.escape(one.localName)}:nth-of-type(${same.indexOf(one) + 1})`;
  };
  /** @param {Element} element */
  const spotOf = (element) => {
    const box = element.getBoundingClientRect();
    const x = box.left + Math.min(box.width / 2, 60);
    const y = box.top + Math.min(box.height / 2, 30);
    const isInView = box.width >= 4 && box.height >= 4 && x >= 0 && y >= 0 && x < innerWidth && y < innerHeight;
    const hit = isInView && document.elementFromPoint(x, y);
    return hit && (hit === element || element.contains(hit)) ? { element, hit, x, y } : null;
  };
  /** @param {Element} one */
  const namesOf = (one) => ['id', 'name', 'title', 'aria-label', 'alt', 'value'].map((name) => one.getAttribute(name) || '');
  /**
   * All that says what a click at an element does, also as separate words: "log out" of `logOut` and of `log-out`.
   * @param {Element} element
   */
  const wordsOf = (element) => {
    const around = [element, ...element.querySelectorAll('*')].slice(0, 100);
    for (let one = element.parentElement; one; one = one.parentElement) if (one.matches('a,button,label,[onclick],[role=button]')) around.push(one);
    const text = [element.textContent || '', ...around.flatMap(namesOf)].join('\n');
    return `${text}\n${text.replace(/([a-z])([A-Z])/g, '$1 $2').replace(/[_-]+/g, ' ')}`;
  };
  /** @param {Element} hit */
  const linkOf = (hit) => hit.closest('a[href]')?.getAttribute('href') || '';
  /** @param {Element} hit */
  const leads = (hit) => linkOf(hit) !== '' && !/^(?:#|javascript:)/i.test(linkOf(hit));
  const avoid = avoided === null ? null : new RegExp(avoided, 'i');
  /** @param {Element} element */
  const isAllowed = (element) => /** @type {HTMLInputElement} */ (element).type !== 'file' && (!avoid || !avoid.test(wordsOf(element)));
  /** @param {Element} hit */
  const isNew = (hit) => !left.length || !(left.includes(linkOf(hit)) || left.includes(pathOf(hit, false)));
  /** @param {Element} element */
  const hasPointer = (element) => getComputedStyle(element).cursor === 'pointer';
  /** Elements without a handler in their tag that show the pointer of a hand. */
  const handled = () => [...document.querySelectorAll('body *')].slice(0, MOST_LOOKED_AT).filter((one) => hasPointer(one) && !(one.parentElement && hasPointer(one.parentElement)));
  /** @param {Element[]} elements @param {(hit: Element) => boolean} isWanted */
  const inView = (elements, isWanted = isNew) => {
    const spots = elements.flatMap((one) => spotOf(one) || []).filter(({ element, hit }) => isAllowed(element) && isWanted(hit));
    return spots.length ? spots[((seed * 1664525 + 1013904223) >>> 0) % spots.length] : null;
  };
  /** @param {Element[]} elements @param {(hit: Element) => boolean} isWanted */
  const outOfView = (elements, isWanted = isNew) => {
    const some = elements.filter((one) => one.getClientRects().length && isAllowed(one));
    for (let k = 0; k < Math.min(some.length, MOST_SCROLLED); k++) {
      const element = some[(((seed * 1664525 + 1013904223) >>> 0) + k) % some.length];
      element.scrollIntoView({ block: 'center', inline: 'nearest', behavior: AT_ONCE });
      const spot = spotOf(element);
      if (spot && isWanted(spot.hit)) return spot;
    }
    return null;
  };
  const all = [...document.querySelectorAll(SELECTOR)];
  const reacting = all.filter((element) => element.matches(REACTS));
  const more = () => [...all, ...handled()];
  /** @param {Element} hit */
  const stays = (hit) => isNew(hit) && !leads(hit);
  const found = inView(reacting) || inView(more(), stays) || outOfView(reacting) || outOfView(more(), stays) || inView(all) || outOfView(all);
  if (!found) return null;
  const { element, hit, x, y } = found;
  const { left: from, top } = hit.getBoundingClientRect();
  const isText = element.matches('textarea,input:not([type]),input[type=text],input[type=search]');
  const [text = ''] = [element.getAttribute('aria-label') || '', element.textContent || '', ...namesOf(element)].map((one) => one.replace(/\s+/g, ' ').trim()).filter((one) => one);
  const label = element.localName + (text ? ` "${text.slice(0, 40)}"` : '');
  const what = element.localName + (element.id ? `#${element.id}` : '');
  return { x, y, isText, label, link: leads(hit) ? linkOf(hit) : pathOf(hit, false), what, target: pathOf(hit, true), place: pathOf(hit, false), inside: { x: x - from, y: y - top } };
}

module.exports = { findTarget, pickTarget };
