// Members of custom elements, which only the definition of their class gives them: code that uses one looks for the definition (page/accesses/definitions.js).

import { findItem } from '../core/lists.js';
import { indexIn } from '../core/strings.js';
import { apply, hasOwn } from '../core/taken.js';

/**
 * Code uses a member of a node. Called by trees.js.
 * @param {import('../types').Recording} recording
 * @param {any} node of the page
 * @param {import('../types').VariableName} member
 * @param {import('../types').Modes} modes
 * @param {number} site
 */
function noteMember({ natives, pages }, node, member, modes, site) {
  if (typeof member !== 'string' || node.nodeType !== 1 || indexIn(apply(natives.localName, node, []), '-') < 0 || hasOwn(node, member)) return;
  const owner = apply(natives.ownerDocument, node, []);
  findItem(pages, ({ document }) => document === owner)?.definitions.noteMember(node, member, modes, site);
}

export { noteMember };
