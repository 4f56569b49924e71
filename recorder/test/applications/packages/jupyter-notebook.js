'use strict';
// Jupyter's notebook with a kernel of Python, after a log-in by a token that becomes a cookie. The user writes into a cell and runs it.

const { freePort } = require('../place.js');
const { Session } = require('../session.js');

const TOKEN = 'jupyter-token-2026-aaaabbbbcccc';
const CELL = { cell_type: 'code', execution_count: null, metadata: {}, outputs: [], source: ['sum(range(10))'] };
const KERNEL = { display_name: 'Python 3 (ipykernel)', language: 'python', name: 'python3' };

/** @type {import('../types').Application} */
module.exports = {
  package: 'jupyter-notebook',
  packages: ['python3-ipykernel'],
  login: 'cookie',
  async start(place) {
    const port = await freePort();
    place.write('notebooks/a.ipynb', { cells: [CELL, { ...CELL, source: ['1 + 1'] }], metadata: { kernelspec: KERNEL }, nbformat: 4, nbformat_minor: 4 });
    const words = ['--no-browser', '--ip=127.0.0.1', `--port=${port}`, '--port-retries=0', '--allow-root', `--notebook-dir=${place.path('notebooks')}`,
      `--NotebookApp.token=${TOKEN}`];
    place.serve('/usr/bin/jupyter-notebook', words, { env: { PATH: '/usr/bin:/bin', JUPYTER_RUNTIME_DIR: place.newFolder('runtime') } });
    const address = `http://127.0.0.1:${port}`;
    await place.ready(`${address}/login`);
    const session = new Session(address);
    await session.request(`/tree?token=${TOKEN}`);
    return { page: `${address}/notebooks/a.ipynb`, given: ['--storage-state', place.write('state.json', session.state())] };
  },
  flow: ['--do', 'wait:2000', '--do', 'click:.code_cell .CodeMirror', '--do', 'click:#run_int button', '--do', 'wait:1500',
    '--do', 'click:#insert_above_below button'],
};
