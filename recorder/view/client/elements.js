// Makes elements, and long lists piece by piece. Texts of the recorded page become text nodes only. So no text of it becomes HTML (no XSS).

/** Of a long list so many rows are drawn at once; "Show more" draws further ones. */
const PIECE = 200;

/**
 * Makes an element: `make('p', { class: 'x' }, 'text', other)`.
 * @template {keyof HTMLElementTagNameMap} T
 * @param {T} tag
 * @param {{[name: string]: string}} attributes
 * @param {(Node|string)[]} children
 */
function make(tag, attributes = {}, ...children) {
  const element = document.createElement(tag);
  Object.entries(attributes).forEach(([name, value]) => element.setAttribute(name, value));
  element.append(...children);
  return element;
}

/**
 * Called by picture.js and replays.js.
 * @template {keyof SVGElementTagNameMap} T
 * @param {T} tag
 * @param {{[name: string]: string|number}} attributes
 * @param {(Node|string)[]} children
 */
function makeSvg(tag, attributes = {}, ...children) {
  const element = document.createElementNS('http://www.w3.org/2000/svg', tag);
  Object.entries(attributes).forEach(([name, value]) => element.setAttribute(name, String(value)));
  element.append(...children);
  return element;
}

/**
 * A control of the page by its id. Called by main.js.
 * @param {string} id
 */
const control = (id) => /** @type {HTMLInputElement|HTMLSelectElement} */ (document.getElementById(id));

/**
 * Called by main.js, races.js and replays.js.
 * @param {number} number
 * @param {string} one
 */
const counted = (number, one) => `${number} ${one}${number === 1 ? '' : 's'}`;

/**
 * Called by races.js.
 * @param {string} kind
 */
const badge = (kind) => make('span', { class: `badge ${kind}` }, kind);

/**
 * A line that opens; its content is made when it first does. Called by main.js, races.js and replays.js.
 * @param {string} className
 * @param {HTMLElement} summary
 * @param {() => Node} build
 */
function foldable(className, summary, build) {
  const details = make('details', { class: className });
  details.append(summary);
  details.addEventListener('toggle', () => {
    if (!details.open || details.dataset.built) return;
    details.dataset.built = 'yes';
    details.append(build());
  });
  return details;
}

/**
 * A long list, a piece at a time. Called by main.js and races.js.
 * @template T
 * @param {T[]} items
 * @param {(item: T) => Node} build
 */
function pieces(items, build) {
  const list = make('div', { class: 'list' });
  let shown = 0;
  const more = make('button', { type: 'button', class: 'more' });
  const show = () => {
    const next = items.slice(shown, shown + PIECE);
    shown += next.length;
    more.before(...next.map((item) => build(item)));
    more.textContent = `Show more (${items.length - shown} left)`;
    more.hidden = shown >= items.length;
  };
  more.addEventListener('click', show);
  list.append(more);
  show();
  return list;
}

export { make, makeSvg, control, counted, badge, foldable, pieces };
