'use strict';
// A text by its digest. A hash (SHA-256) in hexadecimal.

const { createHash } = require('node:crypto');

/** @param {string} text */
const digestOf = (text) => createHash('sha256').update(text).digest('hex');

module.exports = { digestOf };
