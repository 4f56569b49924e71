'use strict';
// The pages of pages/: what a user does, the records that are due in this order, and the locations that race.

/** @typedef {import('./types').PageCase} PageCase */
const TABLES = [
  require('./cases/scripts.js'), require('./cases/objects.js'), require('./cases/tasks.js'), require('./cases/dispatches.js'), require('./cases/elements.js'),
  require('./cases/events.js'), require('./cases/acts.js'),
];

/** @type {PageCase[]} */
exports.cases = TABLES.flatMap(({ cases }) => cases);
