// Not run by this project's tests, since no package of Debian has this version of Jest: a reporter that lists the races of the page loads in ER_TRACES.
'use strict';
const fs = require('node:fs');
const { list } = require('eventracer');

module.exports = class RaceReporter {
  constructor(globalConfig, { folder = process.env.ER_TRACES, known = 'races.known' } = {}) {
    Object.assign(this, { folder, known, fresh: [] });
  }

  async onRunComplete() {
    if (!fs.existsSync(this.folder)) return; // no test loaded a page
    const { problems } = await list([this.folder], { known: this.known }); // it waits for the recorders
    this.fresh = problems.filter(({ fails }) => fails);
    for (const { name, words } of this.fresh) console.error(`${name} ${words}`);
  }

  getLastError() {
    return this.fresh.length ? new Error(`${this.fresh.length} new races`) : undefined;
  }
};
