'use strict';
// The large pages of failures.test.js.

const DIGITS = 'ABCDEFGHIJKLMNOPQRSTUVWXYZabcdefghijklmnopqrstuvwxyz0123456789+/';

/**
 * A whole number in the Base64 VLQ of source maps.
 * @param {number} number
 */
function vlq(number) {
  let rest = number < 0 ? (-number << 1) | 1 : number << 1;
  let text = '';
  do {
    const digit = rest & 31;
    rest >>= 5;
    text += DIGITS[rest ? digit | 32 : digit];
  } while (rest);
  return text;
}

/** What the functions stand before: 60 timeouts that touch 3,000 objects each. */
const WORK = 'for(var i=0;i<1500;i++)L.push({x:0,y:0});'
  + 'function work(){for(var k=0;k<L.length;k++){L[k].x=L[k].x+1;L[k].y=L[k].x}}for(var j=0;j<60;j++)setTimeout(work,10*j)})();';

/**
 * A bundle in one line, and its source map with a segment for each function.
 * @param {number} functions
 */
function bundle(functions) {
  let script = 'var L=[];(function(){';
  const segments = ['AAAA'];
  const source = ['var L'];
  let last = 0;
  const addSegment = () => {
    segments.push(`${vlq(script.length - last)}ACA`);
    last = script.length;
  };
  for (let k = 0; k < functions; k++) {
    addSegment();
    script += `function f${k}(a){return a}`;
    source.push(`function f${k}`);
  }
  addSegment();
  source.push('rest');
  const map = { version: 3, sources: ['src/a.js'], sourcesContent: [source.join('\n')], names: [], mappings: segments.join(',') };
  return { script: script + WORK, map: JSON.stringify(map) };
}

/**
 * A page on which each two answers write the same variables: answers * (answers - 1) / 2 * variables races.
 * @param {number} answers
 * @param {number} variables
 */
function manyRaces(answers, variables) {
  const writes = Array.from({ length: variables }, (_, k) => `v${k} = n;`).join(' ');
  return `<!doctype html><title>many</title><script>
    function write(n) { ${writes} }
    for (let n = 0; n < ${answers}; n++) fetch('/data?' + n).then(() => write(n));
  </script>`;
}

module.exports = { bundle, manyRaces };
