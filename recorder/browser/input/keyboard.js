'use strict';
// The keys of a US keyboard: what a user presses for a character or a key's name (Enter). Other characters have no key here. The browser makes `keydown`,
// `keypress` and `keyup` of them.

/**
 * @typedef {{key: string, code: string, keyCode: number, text?: string, location?: number}} Key
 * @typedef {{key: Key, modifiers: string[]}} Chord
 */

/**
 * The modifier keys, with their bits in the protocol.
 * @type {Map<string, {bit: number, key: Key}>}
 */
const MODIFIERS = new Map([
  ['Alt', { bit: 1, key: { key: 'Alt', code: 'AltLeft', keyCode: 18, location: 1 } }],
  ['Control', { bit: 2, key: { key: 'Control', code: 'ControlLeft', keyCode: 17, location: 1 } }],
  ['Meta', { bit: 4, key: { key: 'Meta', code: 'MetaLeft', keyCode: 91, location: 1 } }],
  ['Shift', { bit: 8, key: { key: 'Shift', code: 'ShiftLeft', keyCode: 16, location: 1 } }],
]);

/** The bits of both keys (1 and 8) in the `modifiers` of the protocol. */
const ALT_AND_SHIFT = 9;

/**
 * Keys without a character of their own, and those whose character is no name.
 * @type {[name: string, keyCode: number, text?: string][]}
 */
const NAMED_KEYS = [
  ['Backspace', 8], ['Tab', 9], ['Enter', 13, '\r'], ['Escape', 27], ['PageUp', 33], ['PageDown', 34], ['End', 35], ['Home', 36],
  ['ArrowLeft', 37], ['ArrowUp', 38], ['ArrowRight', 39], ['ArrowDown', 40], ['Insert', 45], ['Delete', 46],
  ...Array.from({ length: 12 }, (_, k) => /** @type {[string, number]} */ ([`F${k + 1}`, 112 + k])),
];
/** @type {Map<string, Key>} */
const NAMED = new Map([
  ...NAMED_KEYS.map(([name, keyCode, text]) => /** @type {[string, Key]} */ ([name, { key: name, code: name, keyCode, text }])),
  ['Space', { key: ' ', code: 'Space', keyCode: 32, text: ' ' }],
]);

/**
 * Keys with two characters: the second one with Shift.
 * @type {[characters: string, code: string, keyCode: number][]}
 */
const PUNCTUATION = [
  ['`~', 'Backquote', 192], ['-_', 'Minus', 189], ['=+', 'Equal', 187], ['[{', 'BracketLeft', 219], [']}', 'BracketRight', 221], ['\\|', 'Backslash', 220],
  [';:', 'Semicolon', 186], ['\'"', 'Quote', 222], [',<', 'Comma', 188], ['.>', 'Period', 190], ['/?', 'Slash', 191],
];
/** What Shift makes of 0 to 9 on a US keyboard. */
const ABOVE_DIGITS = ')!@#$%^&*(';
const LETTERS = 'abcdefghijklmnopqrstuvwxyz';
/** @type {[characters: string, code: string, keyCode: number][]} */
const DIGIT_KEYS = Array.from(ABOVE_DIGITS, (above, digit) => [`${digit}${above}`, `Digit${digit}`, 48 + digit]);
/** @type {[characters: string, code: string, keyCode: number][]} */
const LETTER_KEYS = Array.from(LETTERS, (letter) => [letter + letter.toUpperCase(), `Key${letter.toUpperCase()}`, letter.toUpperCase().charCodeAt(0)]);

/**
 * By the character.
 * @type {Map<string, {key: Key, isShifted: boolean}>}
 */
const CHARACTERS = new Map([...PUNCTUATION, ...DIGIT_KEYS, ...LETTER_KEYS].flatMap(([characters, code, keyCode]) => [...characters].map((character, k) => (
  /** @type {[string, {key: Key, isShifted: boolean}]} */ ([character, { key: { key: character, code, keyCode, text: character }, isShifted: k === 1 }])
))));
CHARACTERS.set(' ', { key: /** @type {Key} */ (NAMED.get('Space')), isShifted: false });
CHARACTERS.set('\n', { key: /** @type {Key} */ (NAMED.get('Enter')), isShifted: false });

/**
 * What a user presses for a character, or null if the keyboard has no key for it. Called by browser/user.js.
 * @param {string} character
 * @returns {Chord|null}
 */
function chordOfCharacter(character) {
  const found = CHARACTERS.get(character);
  return found ? { key: found.key, modifiers: found.isShifted ? ['Shift'] : [] } : null;
}

/**
 * A key that is held with others gives the character that it has with Shift, or the one without.
 * @param {string} name
 * @param {string[]} modifiers
 */
function chordOfHeld(name, modifiers) {
  const character = LETTERS.includes(name.toLowerCase()) && !modifiers.includes('Shift') ? name.toLowerCase() : name;
  const named = NAMED.get(name);
  if (named) return { key: named, modifiers };
  const found = chordOfCharacter(character);
  const shifted = modifiers.includes('Shift') && found && [...CHARACTERS.values()].find(({ key, isShifted }) => isShifted && key.code === found.key.code);
  return found && { key: shifted ? shifted.key : found.key, modifiers: [...new Set([...modifiers, ...found.modifiers])] };
}

/**
 * What the name of a key means, as `a`, `Home`, `Control+A` or `Shift+Tab`; null if there is no such key. Called by browser/user-steps.js.
 * @param {string} name
 * @returns {Chord|null}
 */
function chordOf(name) {
  const [, before = '', last] = /^((?:[A-Za-z]+\+)*)(.+)$/s.exec(name) || [];
  const modifiers = before.split('+').filter(Boolean);
  if (!last || modifiers.some((one) => !MODIFIERS.has(one))) return null;
  if (modifiers.length) return chordOfHeld(last, modifiers);
  const modifier = MODIFIERS.get(last);
  const named = modifier ? modifier.key : NAMED.get(last);
  return named ? { key: named, modifiers: [] } : chordOfCharacter(last);
}

/**
 * Whether `--do key:NAME` can press it.
 * @param {string} name
 */
const isKey = (name) => chordOf(name) !== null || [...name].length === 1;

/**
 * The calls of the protocol that press and release a chord, the modifier keys around the key as a user does. Called by browser/user.js.
 * @param {Chord} chord
 * @returns {import('../protocol.js').ProtocolObject[]} parameters of Input.dispatchKeyEvent
 */
function eventsOf({ key, modifiers }) {
  const held = modifiers.map((name) => /** @type {{bit: number, key: Key}} */ (MODIFIERS.get(name)));
  const bits = held.reduce((all, { bit }) => all | bit, 0);
  /**
   * @param {Key} one
   * @param {number} bitsNow
   */
  const fields = (one, bitsNow) => ({ modifiers: bitsNow, key: one.key, code: one.code, windowsVirtualKeyCode: one.keyCode, location: one.location });
  const isText = key.text !== undefined && !modifiers.some((name) => name !== 'Shift');
  const down = held.map((one, k) => ({ type: 'rawKeyDown', ...fields(one.key, held.slice(0, k + 1).reduce((all, { bit }) => all | bit, 0)) }));
  const up = held.map((one, k) => ({ type: 'keyUp', ...fields(one.key, held.slice(0, k).reduce((all, { bit }) => all | bit, 0)) })).reverse();
  // Alt and a character can be the access key of an element, which the browser takes from the character
  const access = key.text !== undefined && modifiers.includes('Alt') && bits === (bits & ALT_AND_SHIFT)
    ? [{ type: 'char', ...fields(key, bits), text: key.text, unmodifiedText: key.text, isSystemKey: true }] : [];
  return [...down, { type: isText ? 'keyDown' : 'rawKeyDown', ...fields(key, bits), text: isText ? key.text : undefined }, ...access, { type: 'keyUp', ...fields(key, bits) }, ...up];
}

/**
 * The call of the protocol that presses or releases one key, while others are held; null if there is no such key. Called by browser/user.js.
 * @param {string} name
 * @param {Set<string>} held the modifier keys that are held
 * @param {boolean} isDown
 * @returns {import('../protocol.js').ProtocolObject|null} parameters of Input.dispatchKeyEvent
 */
function halfOf(name, held, isDown) {
  const modifier = MODIFIERS.get(name);
  const chord = modifier ? { key: modifier.key } : chordOf([...held, name].join('+'));
  if (!chord) return null;
  const { key } = chord;
  const isText = isDown && key.text !== undefined && ![...held].some((one) => one !== 'Shift');
  const fields = { modifiers: bitsOf(held), key: key.key, code: key.code, windowsVirtualKeyCode: key.keyCode, location: key.location };
  return { type: isText ? 'keyDown' : isDown ? 'rawKeyDown' : 'keyUp', ...fields, text: isText ? key.text : undefined };
}

/**
 * Called by browser/user.js.
 * @param {string} name
 */
const isModifier = (name) => MODIFIERS.has(name);

/**
 * The modifier keys that are held, as the protocol has them. Called by browser/user.js.
 * @param {Set<string>} held
 */
const bitsOf = (held) => [...held].reduce((all, name) => all | (MODIFIERS.get(name)?.bit || 0), 0);

module.exports = { halfOf, isModifier, bitsOf, chordOf, chordOfCharacter, eventsOf, isKey };
