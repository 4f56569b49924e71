'use strict';
// Values and scripts inside the page of the view. JSON in which no `</script>` can end the element, and the hashes of its content policy.

const { createHash } = require('node:crypto');
const { jsonText } = require('../common/shown.js');

/**
 * JSON inside a script element: no tag can begin in it. Called by html.js.
 * @param {unknown} value
 */
const escapeJson = (value) => jsonText(value).replace(/[<>&]/g, (one) => `\\u${one.charCodeAt(0).toString(16).padStart(4, '0')}`);

/**
 * How many bytes a value adds to the page. Called by choice.js and model.js.
 * @param {unknown} value
 */
const sizeOf = (value) => Buffer.byteLength(escapeJson(value)) + 1;

/**
 * The source by which a content policy allows a script or a style. Called by html.js.
 * @param {string} text
 */
const hashSource = (text) => `'sha256-${createHash('sha256').update(text).digest('base64')}'`;

module.exports = { escapeJson, sizeOf, hashSource };
