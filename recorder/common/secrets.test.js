'use strict';
// Texts without secrets.

const assert = require('node:assert');
const { test } = require('node:test');
const { tokensOf, withoutTokens } = require('./address.js');
const { keepCredentials, keepHeader, keepSecret, redacted, redactedObject, redactedTrace } = require('./secrets.js');

test('parameters whose names say that they are secret', () => {
  for (const [given, due] of [
    ['https://a.example/x?token=abc&page=2', 'https://a.example/x?token=__hidden__&page=2'],
    ['GET /data?user=me&api_key=1#access_token=2', 'GET /data?user=me&api_key=__hidden__#access_token=__hidden__'],
    ['"http://a/?sid=1", then http://b/?X-Amz-Signature=2', '"http://a/?sid=__hidden__", then http://b/?X-Amz-Signature=__hidden__'],
    ['./a?session=1 ../b?auth=2', './a?session=__hidden__ ../b?auth=__hidden__'],
  ]) assert.strictEqual(withoutTokens(given), due);
  for (const same of ['https://a.example/?design=1&monkey=2&author=x', 'x = a ?key=b : c', 'no address', 'a/b?c:d']) assert.strictEqual(withoutTokens(same), same);
  assert.deepStrictEqual(tokensOf('http://a/?token=a%20b&x=1'), ['a b']);
});

test('values that were given', () => {
  keepHeader(['Authorization', 'Bearer abcdef.ghi']);
  keepHeader(['Cookie', 'one=first-1; two=second-2']);
  keepCredentials({ user: 'me', password: 'geheim' });
  keepSecret('12345678');
  keepSecret('abc');
  keepSecret('true');
  keepSecret('two words"');
  assert.strictEqual(redacted('abcdef.ghi first-1 second-2 geheim abc true bWU6Z2VoZWlt two%20words%22'), `${'__hidden__ '.repeat(4)}abc true __hidden__ __hidden__`);
  assert.deepStrictEqual(redactedObject({ geheim: ['x geheim', 12345678], own: 'two words"' }), { geheim: ['x __hidden__', 12345678], own: '__hidden__' });
  assert.strictEqual(redactedTrace('r var 12345678 xgeheim\ngeheim 1\n'), 'r var 12345678 x__hidden__\ngeheim 1\n');
});
