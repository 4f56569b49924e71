'use strict';
// The event handler attributes of Chromium's elements, for a page that comes before the browser was asked for them (`browserFacts` in recorder.js).

const TYPES = [
  'abort', 'afterprint', 'animationcancel', 'animationend', 'animationiteration', 'animationstart', 'auxclick', 'beforecopy', 'beforecut', 'beforeinput',
  'beforematch', 'beforepaste', 'beforeprint', 'beforetoggle', 'beforeunload', 'beforexrselect', 'begin', 'blur', 'cancel', 'canplay', 'canplaythrough',
  'change', 'click', 'close', 'command', 'contentvisibilityautostatechange', 'contextlost', 'contextmenu', 'contextrestored', 'copy', 'cuechange', 'cut',
  'dblclick', 'drag', 'dragend', 'dragenter', 'dragleave', 'dragover', 'dragstart', 'drop', 'durationchange', 'emptied', 'encrypted', 'end', 'ended',
  'enterpictureinpicture', 'error', 'focus', 'focusin', 'focusout', 'formdata', 'fullscreenchange', 'fullscreenerror', 'gotpointercapture', 'hashchange',
  'input', 'invalid', 'keydown', 'keypress', 'keyup', 'languagechange', 'leavepictureinpicture', 'load', 'loadeddata', 'loadedmetadata', 'loadstart',
  'lostpointercapture', 'message', 'messageerror', 'mousedown', 'mouseenter', 'mouseleave', 'mousemove', 'mouseout', 'mouseover', 'mouseup', 'mousewheel',
  'offline', 'online', 'pagehide', 'pageshow', 'paste', 'pause', 'play', 'playing', 'pointercancel', 'pointerdown', 'pointerenter', 'pointerleave',
  'pointermove', 'pointerout', 'pointerover', 'pointerup', 'popstate', 'progress', 'ratechange', 'rejectionhandled', 'repeat', 'reset', 'resize', 'scroll',
  'scrollend', 'scrollsnapchange', 'scrollsnapchanging', 'search', 'securitypolicyviolation', 'seeked', 'seeking', 'select', 'selectionchange',
  'selectstart', 'slotchange', 'stalled', 'storage', 'submit', 'suspend', 'timeupdate', 'toggle', 'transitioncancel', 'transitionend', 'transitionrun',
  'transitionstart', 'unhandledrejection', 'unload', 'volumechange', 'waiting', 'waitingforkey', 'webkitanimationend', 'webkitanimationiteration',
  'webkitanimationstart', 'webkitfullscreenchange', 'webkitfullscreenerror', 'webkittransitionend', 'wheel',
];

/** @type {readonly string[]} */
const HANDLER_NAMES = TYPES.map((type) => `on${type}`);

module.exports = { HANDLER_NAMES };
