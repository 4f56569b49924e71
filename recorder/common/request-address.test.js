'use strict';
// Addresses of requests in two runs.

const assert = require('node:assert');
const { test } = require('node:test');
const { inAnyRun } = require('./request-address.js');

test('an address with the time of the run is that of any run', () => {
  const same = (/** @type {string} */ one, /** @type {string} */ other) => inAnyRun(one) === inAnyRun(other);
  assert.ok(same('http://h/a?_=1796095387312', 'http://h/a?_=1796095399001'));
  assert.ok(same('http://h/a?t=1796095387&q=x#here', 'http://h/a?t=1796095399&q=x'));
  for (const [one, other] of [['?id=12', '?id=13'], ['?_=1796095387312&q=x', '?_=1796095387312&q=y'], ['?card=17960953873121796095', '?card=17960953873121796096'], ['/1796095387312', '/1796095399001']]) {
    assert.ok(!same(`http://h/a${one}`, `http://h/a${other}`), one);
  }
});
