// Names of the properties of a style and of the data of an element: as code has them (`paddingTop`), and as style sheets and attributes have them (`padding-top`).

import { indexIn, lowerCase, sliceOf, upperCase } from '../core/strings.js';

/**
 * Names of a style that are no properties of it.
 * @type {{[property: string]: number|null|undefined}}
 */
const NO_STYLES = { length: 1, parentRule: 1, item: 1, getPropertyValue: 1, getPropertyPriority: 1, setProperty: 1, removeProperty: 1, __proto__: null };
/** What the variables of a style begin with. */
const OF_STYLE = 'style.';

/** @param {string} name in camel case */
function withDashes(name) {
  let text = '';
  for (let k = 0; k < name.length; k++) text += name[k] >= 'A' && name[k] <= 'Z' ? `-${lowerCase(name[k])}` : name[k];
  return text;
}

/**
 * The attribute of a property of `dataset`. Called by trees.js.
 * @param {string} name
 */
const nameOfData = (name) => `data-${withDashes(name)}`;

/**
 * The name that style sheets have for a property. Called by trees.js.
 * @param {string} property
 */
function nameOfStyle(property) {
  if (property === 'cssFloat') return 'float';
  const text = withDashes(property);
  return sliceOf(text, 0, 7) === 'webkit-' ? `-${text}` : text;
}

/**
 * The name that a property has in code, as `style.paddingTop`. Called by trees.js.
 * @param {string} name that style sheets have for it
 */
function propertyOfStyle(name) {
  if (name === 'float') return 'cssFloat';
  if (sliceOf(name, 0, 2) === '--') return name;
  let text = name[0] === '-' ? sliceOf(name, 1) : name;
  for (let at = indexIn(text, '-'); at >= 0; at = indexIn(text, '-')) text = `${sliceOf(text, 0, at)}${upperCase(sliceOf(text, at + 1, at + 2))}${sliceOf(text, at + 2)}`;
  return text;
}

export { NO_STYLES, OF_STYLE, nameOfData, nameOfStyle, propertyOfStyle };
