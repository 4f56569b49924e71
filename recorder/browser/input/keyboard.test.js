'use strict';
// Which keys a user presses.

const assert = require('node:assert');
const { test } = require('node:test');
const { chordOf, chordOfCharacter, eventsOf, isKey } = require('./keyboard.js');

/** @param {string} name */
function pressed(name) {
  const chord = chordOf(name);
  assert.ok(chord, name);
  return eventsOf(chord).map(({ type, key, windowsVirtualKeyCode, modifiers, text }) => `${type} ${key} ${windowsVirtualKeyCode} ${modifiers}${text === undefined ? '' : ` ${JSON.stringify(text)}`}`);
}

test('no character has the code of another key', () => {
  // the codes of Delete, the arrows, Home, End, PageUp, PageDown, Insert and F12
  const editing = new Set([46, 37, 38, 39, 40, 36, 35, 33, 34, 45, 123]);
  for (let code = 32; code < 127; code++) {
    const chord = chordOfCharacter(String.fromCharCode(code));
    assert.ok(chord && !editing.has(chord.key.keyCode), String.fromCharCode(code));
  }
  assert.strictEqual(chordOfCharacter('é'), null);
  assert.strictEqual(chordOfCharacter('.')?.key.keyCode, 190);
});

test('characters above others are pressed with Shift', () => {
  assert.deepStrictEqual(pressed('%'), ['rawKeyDown Shift 16 8', 'keyDown % 53 8 "%"', 'keyUp % 53 8', 'keyUp Shift 16 0']);
  assert.deepStrictEqual(pressed('A'), ['rawKeyDown Shift 16 8', 'keyDown A 65 8 "A"', 'keyUp A 65 8', 'keyUp Shift 16 0']);
  assert.deepStrictEqual(pressed('a'), ['keyDown a 65 0 "a"', 'keyUp a 65 0']);
});

test('names of keys, with others that are held', () => {
  assert.deepStrictEqual(pressed('Control+A'), ['rawKeyDown Control 17 2', 'rawKeyDown a 65 2', 'keyUp a 65 2', 'keyUp Control 17 0']);
  assert.deepStrictEqual(pressed('Shift+Tab'), ['rawKeyDown Shift 16 8', 'rawKeyDown Tab 9 8', 'keyUp Tab 9 8', 'keyUp Shift 16 0']);
  assert.deepStrictEqual(pressed('Shift+a').slice(1, 2), ['keyDown A 65 8 "A"']);
  assert.deepStrictEqual(pressed('Control+Shift+Home').slice(0, 3), ['rawKeyDown Control 17 2', 'rawKeyDown Shift 16 10', 'rawKeyDown Home 36 10']);
  assert.deepStrictEqual(pressed('Space'), ['keyDown   32 0 " "', 'keyUp   32 0']);
  assert.deepStrictEqual(pressed('Enter'), ['keyDown Enter 13 0 "\\r"', 'keyUp Enter 13 0']);
  assert.deepStrictEqual(pressed('+'), pressed('Shift+='));
  assert.deepStrictEqual(pressed('Control++').slice(-3, -2), ['keyUp + 187 10']);
  for (const name of ['Home', 'End', 'PageUp', 'PageDown', 'Delete', 'Backspace', 'Insert', 'F1', 'F12', 'ArrowLeft', 'Shift']) assert.ok(chordOf(name), name);
  for (const name of ['Hom', 'Control+', 'Ctrl+A', 'F13', 'constructor', '', 'Control+constructor']) assert.ok(!isKey(name) && !chordOf(name), name);
  assert.ok(isKey('é'));
});
