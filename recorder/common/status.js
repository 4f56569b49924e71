'use strict';
// The exit statuses of the commands (docs/using.md). 0: no race, 1: a race was found, and the codes of errors.

const STATUS = {
  ok: 0,
  /** A race, also in a recording that is not complete. */
  race: 1,
  /** Wrong arguments. */
  usage: 2,
  /** The analyzer refused the trace: a bug of the recorder. */
  refused: 3,
  /** The page did not load, its recording is not complete, or nothing was recorded. */
  noPage: 4,
  /** The browser failed, or a file could not be written. */
  failed: 5,
  /** A step of --do could not be done. */
  notDone: 6,
  /** No analyzer, and none could be compiled. */
  noProgram: 10,
  /** An internal error: a bug of the command. */
  internal: 70,
  /** A signal stopped the command. */
  stopped: 130,
};

module.exports = { STATUS };
