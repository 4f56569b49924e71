'use strict';
// Each rule in few words (trace/format.json; docs/rules.md says all of it).

const format = require('../trace/format.json');

/** @type {{[rule: number]: string}} */
const RULES = Object.fromEntries(format.rules.map(({ number, words }) => [number, words]));

/**
 * Called by why.js.
 * @param {number} number
 */
const ruleInWords = (number) => (RULES[number] ? `rule ${number}: ${RULES[number]}` : `rule ${number}`);

module.exports = { RULES, ruleInWords };
