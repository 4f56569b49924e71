// The picture of a race: all actions in recorded order in lanes, the two that race, and the links to what they come from. Lanes and arrows in SVG.

import { make, makeSvg } from './elements.js';
import { model, originsAt, wordsOf } from './model.js';
import { originList, originsOf, pairBox } from './origins.js';

/** In pixels of the picture, which grows with its box. */
const LANE_HEIGHT = 26;
const LANE_LEFT = 120;
const PICTURE_WIDTH = 1000;
const MARGIN = 12;
/** So many arrows are drawn at most; all actions are ticks. */
const MOST_LINKS = 200;

/** Made by races.js for the box of a race that is opened. */
class Picture {
  /** @param {import('./model.js').Race} race */
  constructor(race) {
    this.race = race;
    this.count = Math.max(model.actions.length - 1, 1);
    this.height = model.lanes.length * LANE_HEIGHT + 2 * MARGIN;
  }

  /**
   * Where an action is in the picture, from the left.
   * @param {number} action
   */
  x(action) {
    return LANE_LEFT + (action / this.count) * (PICTURE_WIDTH - LANE_LEFT - MARGIN);
  }

  /**
   * The middle of an action's lane.
   * @param {number} action
   */
  y(action) {
    return MARGIN + (model.actions[action][0] + 0.5) * LANE_HEIGHT;
  }

  /** The whole picture: lanes, links, and the two actions. Called by races.js. */
  draw() {
    const svg = makeSvg('svg', { viewBox: `0 0 ${PICTURE_WIDTH} ${this.height}`, role: 'img', 'aria-label': 'the actions in recorded order, a lane for each kind' });
    model.lanes.forEach((name, lane) => svg.append(...this.lane(name, lane)));
    this.race.actions.forEach((action, k) => svg.append(...this.links(action, k ? 'second' : 'first')));
    this.race.actions.forEach((action, k) => svg.append(this.dot(action, k ? 'second' : 'first')));
    return make('figure', { class: 'picture' }, svg, this.caption(svg), this.picked(svg));
  }

  /**
   * One lane with a tick for each of its actions.
   * @param {string} name
   * @param {number} lane
   */
  lane(name, lane) {
    const y = MARGIN + (lane + 0.5) * LANE_HEIGHT;
    const ticks = model.actions.map((action, k) => (action[0] === lane ? `M${this.x(k).toFixed(1)} ${y - 5}v10` : '')).join('');
    const label = makeSvg('text', { x: MARGIN, y: y + 4, class: 'lane' }, name);
    return [makeSvg('line', { x1: LANE_LEFT, x2: PICTURE_WIDTH - MARGIN, y1: y, y2: y, class: 'rail' }), label, makeSvg('path', { d: ticks, class: 'ticks' })];
  }

  /**
   * The links over which an action comes from others.
   * @param {number} action
   * @param {string} kind
   */
  links(action, kind) {
    const origins = originsOf(action);
    const paths = [];
    for (const to of origins.keys()) {
      for (const { from } of originsAt(to)) {
        if (paths.length < MOST_LINKS) paths.push(makeSvg('path', { d: this.arc(from, to), class: `link ${kind}` }));
      }
    }
    return paths;
  }

  /**
   * The path of a link, higher if it is longer.
   * @param {number} from
   * @param {number} to
   */
  arc(from, to) {
    const [x1, y1, x2, y2] = [this.x(from), this.y(from), this.x(to), this.y(to)];
    const lift = Math.min(30, 6 + Math.abs(x2 - x1) / 8);
    return `M${x1.toFixed(1)} ${y1}Q${((x1 + x2) / 2).toFixed(1)} ${Math.min(y1, y2) - lift} ${x2.toFixed(1)} ${y2}`;
  }

  /**
   * @param {number} action
   * @param {string} kind
   */
  dot(action, kind) {
    return makeSvg('circle', { cx: this.x(action), cy: this.y(action), r: 6, class: `dot ${kind}` }, makeSvg('title', {}, `${action}: ${wordsOf(action)}`));
  }

  /**
   * The action at a place of the picture, or undefined.
   * @param {SVGElement} svg
   * @param {MouseEvent} event
   */
  actionAt(svg, event) {
    const box = svg.getBoundingClientRect();
    const x = ((event.clientX - box.left) / box.width) * PICTURE_WIDTH;
    const action = Math.round(((x - LANE_LEFT) / (PICTURE_WIDTH - LANE_LEFT - MARGIN)) * this.count);
    return model.actions[action] ? action : undefined;
  }

  /**
   * Shows the action under the pointer.
   * @param {SVGElement} svg
   */
  caption(svg) {
    const text = 'Recorded order from left to right. Filled: the two that race; lines: what they come from. Click at an action to see where it comes from, and at a second one to see why the two are ordered.';
    const caption = make('figcaption', {}, text);
    svg.addEventListener('mousemove', (event) => {
      const action = this.actionAt(svg, event);
      caption.textContent = action === undefined ? text : `Action ${action}: ${wordsOf(action)}`;
    });
    svg.addEventListener('mouseleave', () => { caption.textContent = text; });
    return caption;
  }

  /**
   * Where an action comes from that a reader picks, and for two picked ones why they are ordered.
   * @param {SVGElement} svg
   */
  picked(svg) {
    const box = make('div', { class: 'picked' });
    /** @type {number[]} */
    let picks = [];
    svg.addEventListener('click', (event) => {
      const action = this.actionAt(svg, event);
      if (action === undefined) return;
      picks = picks.length === 1 && picks[0] !== action ? [picks[0], action].sort((a, b) => a - b) : [action];
      box.replaceChildren(...picks.map((one) => make('p', {}, `Action ${one}, line ${model.actions[one][1]} of the trace: ${wordsOf(one)}`)));
      box.append(picks.length === 2 ? pairBox(picks[0], picks[1]) : originList(action));
    });
    return box;
  }
}

export { Picture };
