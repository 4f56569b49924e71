// Hiding: objects that the page can get hold of, without a way from them to the recorder. The page sees no properties and no prototype of them.

import { Object, Reflect } from './taken.js';

/**
 * Leaves nothing at the objects of a class that the page could use or replace; a class hides what they have in private members. Called by
 * page/helpers/awaits.js and page/objects/scopes.js.
 * @param {Function} Class
 */
function hideClass({ prototype }) {
  Reflect.deleteProperty(prototype, 'constructor');
  Object.setPrototypeOf(prototype, null);
  Object.freeze(prototype);
}

export { hideClass };
