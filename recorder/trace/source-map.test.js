'use strict';
// Source maps: places of a bundle, and those of the files that it was made of. No browser.

const assert = require('node:assert');
const { test } = require('node:test');
const { SourceMap, readMap } = require('./source-map.js');
const { Sources } = require('../texts/sources.js');
const { ServerOfScript } = require('../browser/local-server.js');
const { Names } = require('./names.js');

// The first line of the bundle has two segments: column 0 is a.js:1:1 `count`, column 10 is node_modules/b.js:3:5. The second line has none.
const MAP = { version: 3, sources: ['a.js', 'node_modules/b.js'], sourcesContent: ['var count;'], names: ['count'], mappings: 'AAAAA,UCEI;' };

test('segments', () => {
  const map = new SourceMap(MAP, '');
  assert.deepStrictEqual(map.original(1, 1), { source: 0, line: 1, column: 1, name: 'count' });
  assert.deepStrictEqual(map.original(1, 5), { source: 0, line: 1, column: 1, name: undefined });
  assert.deepStrictEqual(map.original(1, 11), { source: 1, line: 3, column: 5, name: undefined });
  assert.strictEqual(map.original(2, 1), null);
  assert.strictEqual(map.original(9, 1), null);
});

test('where a map stands', async () => {
  const read = async (/** @type {string} */ address) => (address === 'http://localhost/x/a.map' ? JSON.stringify(MAP) : null);
  assert.ok(await readMap('var a;\n//# sourceMappingURL=a.map\n', 'http://localhost/x/a.js', read));
  const inline = `data:application/json;base64,${Buffer.from(JSON.stringify(MAP)).toString('base64')}`;
  assert.ok(await readMap(`var a;\n//# sourceMappingURL=${inline}`, 'http://localhost/a.js', read));
  assert.strictEqual(await readMap('var a;\n//# sourceMappingURL=none.map', 'http://localhost/a.js', read), null);
  assert.strictEqual(await readMap('var a; // sourceMappingURL', 'http://localhost/a.js', read), null);
  assert.strictEqual(await readMap('var a;\n//# sourceMappingURL=a.map', 'http://localhost/x/a.js', async () => '{"version": 2}'), null);
});

test('the comment that names a map', async () => {
  const named = async (/** @type {string} */ text, /** @type {string|undefined} */ header = undefined) => {
    /** @type {string[]} */
    const asked = [];
    await readMap(text, 'http://localhost/x/a.js', async (address) => { asked.push(address); return null; }, () => {}, header);
    return asked.length ? asked[asked.length - 1].replace('http://localhost/x/', '') : null;
  };
  assert.strictEqual(await named('a()//# sourceMappingURL=a.map'), 'a.map');
  assert.strictEqual(await named('a()\n//#\tsourceMappingURL=a.map  \n\n'), 'a.map');
  assert.strictEqual(await named('a()\n//#  sourceMappingURL=a.map\n//# sourceURL=b.js\n// the end\n'), 'a.map');
  assert.strictEqual(await named('a{}\n/*# sourceMappingURL=a.map */\n'), 'a.map');
  assert.strictEqual(await named('//# sourceMappingURL=old.map\n//# sourceMappingURL=a.map\r\n'), 'a.map');
  assert.strictEqual(await named('//# sourceMappingURL=old.map\na()\n'), null);
  assert.strictEqual(await named('a()\n//# sourceMappingURL=a.map', 'header.map'), 'header.map');
  assert.strictEqual(await named('a("//# sourceMappingURL=a.map")'), null);
  const begin = Date.now();
  assert.strictEqual(await named(`${'//#sourceMappingURL=data:'.repeat(40000)} x`), null);
  assert.strictEqual(await named('\n'.repeat(1000000)), null);
  assert.ok(Date.now() - begin < 1000, `${Date.now() - begin} ms`);
});

/**
 * The map of a script whose file of the map has a value.
 * @param {object} value
 */
async function mapOf(value) {
  const map = await readMap('x\n//# sourceMappingURL=a.map', 'http://localhost/a.js', async () => JSON.stringify(value));
  if (!map) throw new Error('no map');
  return map;
}

test('maps as other tools write them', async () => {
  const read = (/** @type {object} */ change) => mapOf({ ...MAP, ...change });
  assert.strictEqual((await read({ names: null })).original(1, 1)?.line, 1);
  assert.deepStrictEqual((await read({ sourcesContent: null })).texts, []);
  assert.strictEqual((await read({ names: [7] })).original(1, 1)?.name, '7');
  const unsorted = await read({ mappings: 'UCEI,VDFJA' });
  assert.deepStrictEqual([unsorted.original(1, 1)?.line, unsorted.original(1, 11)?.line], [1, 3]);
});

test('maps of several parts', async () => {
  const sections = [{ offset: { line: 0, column: 0 }, map: MAP }, { offset: { line: 1, column: 4 }, map: { ...MAP, sources: ['c.js'], sourcesContent: ['c'], mappings: 'AAAAA;AACA' } }];
  const map = await mapOf({ version: 3, sections });
  assert.deepStrictEqual(map.sources, ['a.js', 'node_modules/b.js', 'c.js']);
  assert.deepStrictEqual(map.texts, ['var count;', undefined, 'c']);
  assert.deepStrictEqual(map.original(1, 11), { source: 1, line: 3, column: 5, name: undefined });
  assert.deepStrictEqual(map.original(2, 5), { source: 2, line: 1, column: 1, name: 'count' });
  assert.deepStrictEqual(map.original(3, 1), { source: 2, line: 2, column: 1, name: undefined });
});

test('maps that are left out are told', async () => {
  const told = async (/** @type {string|null} */ answer, name = 'a.map') => {
    /** @type {string[]} */
    const why = [];
    assert.strictEqual(await readMap(`x\n//# sourceMappingURL=${name}`, 'http://localhost/a.js', async () => answer, (one) => why.push(one)), null);
    return why.join();
  };
  const of = (/** @type {object} */ change) => JSON.stringify({ ...MAP, ...change });
  assert.match(await told(null), /not among the page's files/);
  assert.match(await told('<!doctype html>'), /no JSON/);
  assert.match(await told(of({ version: 2 })), /no known version/);
  assert.match(await told(of({ sources: 'a.js' })), /missing or is no such thing/);
  assert.match(await told(of({ names: [{}] })), /missing or is no such thing/);
  assert.match(await told(of({ mappings: 'A A' })), /digit that is none/);
  assert.match(await told(of({ mappings: ';'.repeat(17 * 1024 * 1024) })), /more than 16777216 characters/);
  assert.match(await told(JSON.stringify({ version: 3, sections: [{ offset: { line: 0 }, map: MAP }] })), /missing or is no such thing/);
  assert.match(await told(JSON.stringify({ version: 3, sections: [{ offset: { line: 0, column: 0 }, url: 'b.map' }] })), /missing or is no such thing/);
  assert.match(await told('null'), /no known version/);
  assert.match(await told('', 'data:application/json;base64,bm8='), /no JSON/);
  assert.match(await told('', 'data:application/json,%E0%A4%A'), /can't be read/);
});

test('a map that names what it has not', () => {
  const map = new SourceMap({ ...MAP, mappings: 'AAAAA,UEAA,UAFA,UADGD' }, '');
  assert.strictEqual(map.original(1, 1)?.name, 'count');
  for (const column of [12, 22, 32]) assert.doesNotThrow(() => map.original(1, column));
  assert.strictEqual(map.original(1, 12), null);
});

test('which servers are asked for a map', () => {
  const server = new ServerOfScript('https://cdn.example/x/a.js');
  assert.ok(server.has('https://cdn.example/maps/a.js.map'));
  for (const other of ['https://example/a.js.map', 'http://cdn.example/a.js.map', 'file:///etc/passwd', 'no address']) assert.ok(!server.has(other), other);
});

test('places of a bundle, and what is a library of it', async () => {
  const sources = new Sources('objects');
  sources.rewriteScript('http://localhost/x/a.js', 'var n=1;  f.x=1\n//# sourceMappingURL=a.map');
  await sources.readMaps(async () => JSON.stringify(MAP));
  const sites = sources.sites.map(({ offset }, site) => ({ offset, place: sources.placeOfSite(site), isLibrary: sources.isLibrary(String(site), /^none$/) }));
  const [own, other] = [4, 12].map((at) => sites.filter(({ offset }) => offset === at)[0]);
  assert.deepStrictEqual([sources.files[own.place[0]].address, own.place[1], own.isLibrary], ['http://localhost/x/a.js', 1, false]);
  assert.deepStrictEqual([sources.files[other.place[0]].address, other.place[1], other.isLibrary], ['http://localhost/x/node_modules/b.js', 3, true]);
});

test('of a stack in a bundle the first place outside of its libraries', async () => {
  const address = 'http://localhost/x/a.js';
  const sources = new Sources('globals');
  const [line] = sources.rewriteScript(address, 'var n=1;  f(1)\n//# sourceMappingURL=a.map').split('\n');
  await sources.readMaps(async () => JSON.stringify(MAP));
  const [source] = sources.files;
  const edited = 'edited' in source ? source.edited : null;
  /** The place in the marked copy that stands for a column of the original. */
  const at = (/** @type {number} */ column) => `${address}:1:${[...line].findIndex((sign, k) => edited?.originalPlace(1, k + 1).column === column) + 1}`;
  const names = new Names(sources, [{ kind: 'stack', number: 1, places: [at(11), at(5)].join('\n') }], /^none$/);
  names.addRecords([{ text: 'parse 0 1 inline' }, { text: 'exec 1' }, { text: 'set 1 0', place: at(11), stack: '1' }]);
  const { places, ways, timeouts, files } = /** @type {ReturnType<Names['facts']> & Pick<Names['lists'], 'timeouts'>} */ (names.facts()); // with each list
  const [own, way] = [places[4], ways[4]].map(([file, number]) => `${files[file].address}:${number}`);
  assert.deepStrictEqual([own, way], ['http://localhost/x/a.js:1', 'http://localhost/x/node_modules/b.js:3']);
  assert.deepStrictEqual(timeouts[1], { place: places[4], way: ways[4] });
});
