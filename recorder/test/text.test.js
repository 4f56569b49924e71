'use strict';
// Encodings: a recorded page has the characters that it has without the recorder, also where nothing names its encoding.

const assert = require('node:assert');
const http = require('node:http');
const { after, before, test } = require('node:test');
const { Chromium } = require('../browser/chromium.js');
const { readText } = require('../browser/text.js');
const { quote } = require('../instrument/marks/quote.js');
const { encodeValue } = require('../instrument/attribute-text.js');
const { readTags } = require('../instrument/tags.js');
const { parseOptions } = require('../recording/options.js');
const { Recorder } = require('../recording/recorder.js');

const ALL = Buffer.from(Array.from({ length: 256 }, (_, byte) => byte));
/** A script of its own file, and a handler, whose text is given by its characters' numbers. */
const CODE = "document.body.append(' file ' + [...'é€'].map((sign) => sign.charCodeAt(0))); window['caf\\u00e9 \\u2603'] = 1;";
const HTML = `<title>café</title><p id=a onclick="this.title = '&#9731;é'; a.textContent = a.title.length + ' ' + a.title.charCodeAt(1)">café</p>
<script>document.body.append(document.characterSet + ' inline ' + [...'é€'].map((sign) => sign.charCodeAt(0))); window['caf\\u00e9 \\u2603'] = 1; a.click();</script><script src="code.js"></script>`;
/** @typedef {(text: string) => Buffer} Write */
/** @type {Write} */
const latin1 = (text) => Buffer.from(text.replaceAll('€', '\x80'), 'latin1');
/**
 * A text with two characters of an encoding in place of `é€`, of which the second byte may be a backslash.
 * @param {number[]} bytes
 * @returns {Write}
 */
const withBytes = (...bytes) => (text) => Buffer.concat(text.split('é€').flatMap((part, k) => [Buffer.from(k ? bytes : []), Buffer.from(part.replaceAll('é', 'e'))]));
const shiftJis = withBytes(0x95, 0x5c, 0x83, 0x5c);
/** Its second sequence decodes to a character that is encoded in another way. */
const shiftJisOfNec = withBytes(0x95, 0x5c, 0x87, 0x90);
const gbk = withBytes(0x81, 0x5c, 0xc4, 0xe3);
/**
 * A page that names its encoding; its script does not.
 * @param {string} label
 * @param {Write} write
 * @returns {Write}
 */
const named = (label, write) => (text) => Buffer.concat([Buffer.from(text.startsWith('<') ? `<!-- <meta charset="koi8-r"> --><meta charset="${label}">` : ''), write(text)]);
const MARK = Buffer.from([0xff, 0xfe]);
/**
 * Encodings, and two characters of each.
 * @type {[string, ...number[]][]}
 */
const OF_TWO_BYTES = [['shift_jis', 0x95, 0x5c, 0x83, 0x5c], ['gbk', 0x81, 0x5c, 0xc4, 0xe3], ['gb18030', 0x81, 0x5c, 0xc4, 0xe3], ['big5', 0xa5, 0x5c, 0xb3, 0x5c],
  ['euc-jp', 0xb0, 0xa1, 0x8f, 0xb0, 0xa1], ['euc-kr', 0xb0, 0xa1, 0xb0, 0xa2]];
/**
 * What a server sends: the content type after `text/html` or `text/javascript`, and how the text is written.
 * @type {Record<string, [string, Write]>}
 */
const SENT = {
  'no name, UTF-8': ['', (text) => Buffer.from(text)],
  'no name, Windows-1252': ['', latin1],
  'Windows-1252': ['; charset=iso-8859-1', latin1],
  'Windows-1252 named in the page': ['', named('windows-1252', latin1)],
  'UTF-8': ['; charset=utf-8', (text) => Buffer.from(text)],
  'a byte order mark of UTF-8 under another name': ['; charset=iso-8859-1', (text) => Buffer.from(`\ufeff${text}`)],
  'UTF-16': ['', (text) => Buffer.concat([MARK, Buffer.from(text, 'utf16le')])],
  'UTF-16, the other order': ['', (text) => Buffer.concat([MARK, Buffer.from(text, 'utf16le')]).swap16()],
  'Shift_JIS': ['; charset=shift_jis', shiftJis],
  'Shift_JIS named in the page': ['', named('shift_jis', shiftJis)],
  'Shift_JIS with characters that are encoded in another way': ['', named('shift_jis', shiftJisOfNec)],
  'GBK named in the page': ['', named('gbk', gbk)],
  'GBK after another parameter': ['; x=charset=utf-8; charset="gbk"', gbk],
  'EUC-KR': ['; charset=euc-kr', withBytes(0xb0, 0xa1, 0xb0, 0xa2)],
  'Big5': ['; charset=big5', withBytes(0xa5, 0x5c, 0xb3, 0x5c)],
};

test('what is read can be written', () => {
  for (const label of ['windows-1252', 'iso-8859-15', 'koi8-r', 'windows-1251', 'macintosh']) {
    const { text, write, charset } = readText(ALL, `text/html; charset=${label}`, true);
    assert.ok(write(text).equals(ALL) && !charset, label);
  }
  for (const [label, ...bytes] of OF_TWO_BYTES) {
    const page = Buffer.from([0x61, ...bytes, 0x0a]);
    const { text, write, charset } = readText(page, `text/html; charset=${label}`, true);
    assert.ok(write(text).equals(page) && !charset && text.length > 2, label);
  }
  assert.strictEqual(readText(ALL, 'text/html; charset=iso-2022-jp', true).charset, 'utf-8');
  assert.strictEqual(readText(Buffer.from([0x87, 0x90]), 'text/html; charset=shift_jis', true).charset, 'utf-8');
  assert.strictEqual(readText(Buffer.from('var \x9a = 1', 'latin1'), 'text/javascript; charset=latin1', false).text, 'var \u0161 = 1');
  assert.strictEqual(readText(latin1('é'), '', false).text, 'é');
  assert.strictEqual(readText(Buffer.from([0x95, 0x5c]), '', false, 'shift_jis').text, '表');
});

test('the encoding that a page names', () => {
  const long = 'x'.padEnd(1100);
  for (const [page, label] of /** @type {[string, string|null][]} */ ([
    ['<!-- <meta charset="gbk"> --><meta charset=utf-8><p>', 'utf-8'],
    ['<script>"<meta charset=gbk>"</script><meta charset=big5>', 'big5'],
    ['<title><meta charset=gbk></title>', null],
    ['<meta name=x content="charset=gbk">', null],
    ['<meta data-charset=gbk>', null],
    ['<p title="<meta charset=gbk>">', null],
    ['</ <meta charset=gbk>', null],
    ['<meta http-equiv=Content-Type content="text/html; charset=big5">', 'big5'],
    ['<meta content="text/html; charset = \'euc-kr\'" http-equiv=content-type>', 'euc-kr'],
    ['<meta/charset=gbk />', 'gbk'],
    ['<META x charset = "gbk" charset=big5>', 'big5'],
    ['<noscript><meta charset=gbk></noscript>', 'gbk'],
    ['<meta charset=none><meta charset=gbk>', 'gbk'],
    ['<meta charset=utf-16le>', 'utf-8'],
    ['<p><meta charset=gbk>', 'gbk'],
    [`<p>${long}<meta charset=gbk>`, null],
    [`<title>${long}</title><meta charset=gbk>`, 'gbk'], // the browser goes on in the head
  ])) assert.strictEqual(readText(Buffer.from(page), 'text/html', true).label, label, page);
});

test('the encoding that a content type names', () => {
  for (const [type, label] of /** @type {[string, string|null][]} */ ([
    ['text/html; charset=gbk', 'gbk'], ['text/html;CHARSET="gbk" x', 'gbk'], ['text/html; x=charset=gbk; charset=utf-8', 'utf-8'],
    ['text/html; charset=; charset=big5', 'big5'], ['text/html; xcharset=gbk', null], ['', null],
  ])) assert.strictEqual(readText(Buffer.from('a'), type, true).label, label, type);
});

test('what is inserted stands in any encoding, and ends no script', () => {
  assert.strictEqual(quote('</script>é☃'), '"<\\/script>\\u00e9\\u2603"');
  assert.strictEqual(encodeValue('"é&😀"', '&eacute;'), '"&quot;&#233;&amp;&#128512;&quot;"');
  assert.strictEqual(encodeValue('é&', 'é'), '"é&amp;"');
  assert.strictEqual(readTags(`<p title=${encodeValue('é&😀\r"', '')}>`)[0].attributes[0].value, 'é&😀\r"');
});

/** @type {Chromium} */
let browser;
/** @type {http.Server} */
let server;
let origin = '';
before(async () => {
  browser = await Chromium.launch({ width: 1100, height: 800 });
  server = http.createServer(({ url = '' }, response) => {
    const [, name, file] = url.split('/');
    const [charset, write] = SENT[decodeURIComponent(name)] || ['', Buffer.from];
    response.writeHead(200, { 'content-type': `text/${file === 'code.js' ? 'javascript' : 'html'}${charset}` }).end(write(file === 'code.js' ? CODE : HTML));
  });
  await new Promise((resolve) => server.listen(0, '127.0.0.1', () => resolve(undefined)));
  const address = server.address();
  assert.ok(address && typeof address === 'object');
  origin = `http://127.0.0.1:${address.port}`;
});
after(async () => {
  await browser.close();
  server.closeAllConnections();
  server.close();
});

/**
 * What a user finds in a page, and its errors.
 * @param {string} address
 * @param {string[]} words
 */
async function shown(address, words) {
  let text = '';
  const whenOver = async (/** @type {Recorder} */ { tab }) => { text = await tab?.evaluateApart('document.title + document.body.innerText'); };
  const recorder = new Recorder(address, { ...parseOptions([...words, address]), browser, whenOver });
  await recorder.record();
  return { text, errors: recorder.errors };
}

for (const name of Object.keys(SENT)) {
  test(`a page and a script in ${name}`, { timeout: 150000 }, async () => {
    const address = `${origin}/${encodeURIComponent(name)}/page`;
    const raw = await shown(address, ['--raw']);
    const recorded = await shown(address, []);
    if (name.includes('another way')) raw.text = raw.text.replace('Shift_JIS', 'UTF-8'); // its copy cannot be in it
    assert.match(raw.text, /file \d+/);
    assert.deepStrictEqual(recorded, raw);
  });
}
