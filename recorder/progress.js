'use strict';
// The line on standard error that shows how a recording goes, or the runs of a replay. On a terminal the line is overwritten.

/** Milliseconds between two lines: a terminal overwrites its line, a log gets a new one. */
const ON_TERMINAL = 250;
const ELSEWHERE = 5000;

/** Made by the commands that record or replay: record.js, page-flow.js, replay-progress.js. */
class Progress {
  /**
   * @param {NodeJS.WriteStream} stream
   * @param {() => string} inWords what is shown after the seconds
   */
  constructor(stream, inWords) {
    this.stream = stream;
    this.inWords = inWords;
    this.start = Date.now();
    this.last = '';
    this.timer = setInterval(() => this.show(), stream.isTTY ? ON_TERMINAL : ELSEWHERE);
  }

  /** Called by record.js. */
  seconds() {
    return (Date.now() - this.start) / 1000;
  }

  show() {
    const line = `${this.seconds().toFixed(1)} s, ${this.inWords()}`;
    if (this.stream.isTTY) this.stream.write(`\r\x1b[K${line}`);
    else if (line !== this.last) this.stream.write(`${line}\n`);
    this.last = line;
  }

  /** Makes room for another line. Called by replay-progress.js. */
  clear() {
    if (this.stream.isTTY) this.stream.write('\r\x1b[K');
  }

  end() {
    clearInterval(this.timer);
    this.clear();
  }
}

module.exports = { Progress };
