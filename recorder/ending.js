'use strict';
// The end of a command: a pipe that is read slowly gets all that was written before the process exits. Standard output is flushed.

/**
 * Ends this process with a status, once standard output and standard error have taken everything, or take no more. Called by command.js.
 * @param {number} status
 */
function endWith(status) {
  const left = new Set([process.stdout, process.stderr]);
  for (const stream of [...left]) {
    stream.on('error', () => {}); // nobody reads it any more
    stream.write('', () => {
      left.delete(stream);
      if (!left.size) process.exit(status);
    });
  }
}

module.exports = { endWith };
