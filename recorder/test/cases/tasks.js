'use strict';
// Pages of pages/: timers, microtasks and requests.

/** @type {import('../types').PageCase[]} */
exports.cases = [
  // ---- timers and jobs
  {
    page: 'timer.html',
    due: [
      'set 10', 'set 0', 'timer', 'r cart', 'timer', 'w cart',
    ],
    races: ['cart'],
  },
  {
    page: 'interval.html',
    due: [
      'every 5', 'tick', 'w ticks', 'tick', 'w ticks', 'tick', 'w ticks',
    ],
  },
  {
    page: 'nested-timers.html',
    due: [
      'set 5', 'timer', 'w depth', 'set 0', 'timer', 'w depth',
    ],
  },
  {
    page: 'idle-callbacks.html',
    due: ['exec script', 'every 0', 'every 0', 'tick', 'w seen', 'tick', 'r seen', 'w seen'],
    races: ['other', 'seen'],
  },
  {
    page: 'leaving.html',
    due: ['timer', 'wfire pagehide', 'run hides', 'w steps', 'close', 'on an event before', 'fire document visibilitychange', 'run an event before', 'run changes',
      'wfire unload', 'run an event before', 'run goes', 'r steps'],
    races: ['pagehide of window', 'unload of window', 'visibilitychange of document'],
  },
  {
    page: 'leaving-by-call.html', // the call asks first
    due: ['timer', 'w asked', 'inline window beforeunload', 'run asks', 'r asked', 'w left', 'close', 'on an event before', 'back', 'w late', 'wfire pagehide', 'run an event before',
      'run hides', 'r left', 'r late'],
    races: ['late', 'pagehide of window'],
  },
  {
    page: 'text-timer.html',
    due: [
      'set 1', 'timer', 'w late',
    ],
  },
  {
    page: 'animation-frame.html',
    due: [
      'w painted', 'ask', 'anim', 'r painted', 'w painted',
    ],
  },
  {
    page: 'animation-frame.html',
    version: 2,
    due: [
      'w painted', 'every 0', 'tick', 'r painted', 'w painted',
    ],
  },
  {
    page: 'promise.html',
    due: [
      'w value', 'on soon', 'w afterwards', 'exec script', 'r value',
    ],
  },
  {
    page: 'promise-of-another.html',
    due: [
      'on reaction', 'set 0', 'timer', 'r settle', 'inline promise reactions then', 'run reaction', 'r later',
      'close', 'back',
    ],
  },
  {
    page: 'mutation-observer.html',
    due: [
      'on changed', 'exec script', 'new i plain', 'inline promise reactions then', 'run changed', 'w changes',
    ],
  },
  {
    page: 'messages.html',
    due: [
      'on got', 'timer', 'w b', 'post', 'message', 'inline ? message', 'run got', 'w last', 'close', 'back', 'message', 'inline ? message', 'run got', 'w last',
    ],
    races: ['last'],
  },
  {
    page: 'messages.html',
    version: 2,
    due: [
      'on got', 'timer', 'w b', 'new ? plain', 'fire ? message', 'run got', 'fire ? message', 'run got',
    ],
    races: ['last'],
  },
  {
    page: 'broadcast.html',
    due: ['on got', 'timer', 'post', 'message', 'w last', 'message', 'w last'],
    races: ['last'],
  },
  {
    page: 'broadcast.html',
    version: 2,
    due: ['on got', 'timer', 'fire ? message', 'run got', 'w last', 'fire ? message', 'run got', 'w last'],
    races: ['last'],
  },
  {
    page: 'when-defined.html',
    due: ['dcl', 'run defines', 'w config', 'w rest', 'inline what settled the promise settled', 'on what settled the promise', 'back', 'r config', 'w late',
      'timer', 'inline promise reactions then', 'run what settled the promise', 'run uses', 'r config', 'r rest', 'r late'],
    races: ['late'],
  },
  {
    page: 'message-unheard.html',
    due: ['timer', 'w sent', 'post', 'post', 'message', 'inline ? message', 'run got', 'r told', 'r sent'],
    besides: [['timer', 'w sent', 'post', 'post', 'message', 'inline ? message', 'run heard', 'r told', 'r sent']],
    races: ['told'],
  },
  {
    page: 'message-unheard.html',
    version: 2,
    due: ['timer', 'w sent', 'fire ? message', 'run got', 'r told', 'r sent'],
    besides: [['timer', 'w sent', 'fire ? message', 'run heard', 'r told', 'r sent']],
    races: ['told'],
  },
  { page: 'message-refused.html', due: ['timer', 'w sent', 'post', 'message', 'inline ? message', 'run got', 'r sent'] },
  {
    page: 'broadcast-worker.html',
    due: ['timer', 'w sent', 'post', 'fire BroadcastChannel message', 'run got', 'r sent'],
    races: ['sent'],
  },
  {
    page: 'ended-callback.html', // `forgets` clears nothing that is known
    words: ['--do', 'click:button'],
    due: ['timer', 'w state', 'timer', 'w other', 'tick', 'w kept', 'run forgets', 'w other', 'run pauses', 'on the end of a callback', 'w kept', 'run stops', 'on the end of a callback', 'w state'],
    races: ['kept', 'mousedown of button', 'mouseup of button', 'other', 'state'],
  },
  {
    page: 'worker.html',
    words: ['--time', '20'],
    due: [
      'new Worker plain', 'fire Worker message', 'run answered', 'w answer',
    ],
    losses: [/^workers: 1$/],
  },
  {
    page: 'worker-file.html',
    words: ['--time', '20'],
    due: [
      'new Worker plain', 'fire Worker message', 'run answered', 'w answer',
    ],
  },

  // ---- requests
  {
    page: 'file-reader.html',
    due: ['timer', 'w text', 'on onText', 'send', 'reply', 'run onText', 'w text', 'close'],
    races: [],
  },
  {
    page: 'indexed-db.html',
    due: ['send', 'on upgrade', 'on opened', 'reply', 'run upgrade', 'reply', 'run opened', 'w kept', 'send', 'send', 'on stored', 'reply', 'run stored', 'w kept'],
    races: [],
  },
  {
    page: 'xhr.html',
    due: [
      'on onAnswer', 'send', 'reply', 'run onAnswer', 'w answer', 'close',
    ],
  },
  {
    page: 'xhr-events.html',
    due: [
      'inline XMLHttpRequest readystatechange', 'run onState', 'close', 'back', 'send', 'reply', 'run onState',
      'reply', 'run onState',
    ],
  },
  {
    page: 'fetch.html',
    due: [
      'send', 'on gotHead', 'on gotBody', 'reply', 'run reply of fetch', 'close', 'reply', 'run reply of fetch',
      'w items', 'close',
    ],
  },
  {
    page: 'fetch-await.html',
    due: [
      'send', 'reply', 'w head', 'close', 'reply', 'w items', 'close',
    ],
  },
  // ---- requests that code ends: what is sent then is answered after them
  {
    page: 'search-aborts.html', // the click that ends the request can come before its reply, which `ready` shows
    words: ['--do', 'click:#search', '--do', 'wait:200', '--do', 'click:#search', '--do', 'wait:200'],
    due: ['run click', 'send', 'reply', 'w found', 'close', 'on the reply of an ended request', 'run click', 'send', 'reply', 'run the reply of an ended request',
      'run reply of fetch', 'reply', 'run reply of fetch', 'w found'],
    races: ['ready'],
  },
  {
    page: 'search-aborts-late.html',
    words: ['--do', 'click:#search', '--do', 'wait:200', '--do', 'click:#search', '--do', 'wait:200'],
    due: ['timer', 'send', 'reply', 'w found', 'on the reply of an ended request', 'timer', 'send', 'run the reply of an ended request', 'w found'],
    races: [],
  },
  {
    page: 'search-of-two.html',
    words: ['--do', 'click:#first', '--do', 'wait:200', '--do', 'click:#second', '--do', 'wait:200'],
    due: ['send', 'w found', 'send', 'w found'],
    never: ['on the reply of an ended request'],
    races: ['control', 'found'],
  },
  {
    page: 'search-twice.html',
    words: ['--do', 'click:#search', '--do', 'wait:200', '--do', 'click:#search', '--do', 'wait:200'],
    due: ['send', 'w found', 'send', 'w found'],
    never: ['on the reply of an ended request'],
    races: ['found', 'isOpen of control'],
  },
  {
    page: 'xhr-again.html',
    due: ['timer', 'send', 'send', 'reply', 'on the reply of an ended request', 'timer', 'send', 'send', 'reply', 'run the reply of an ended request'],
    besides: [['w answer', 'w answer'], ['w text', 'w text']],
    races: [],
  },
  // what cannot happen and is listed all the same (docs/lost.md)
  { page: 'barrier.html', due: ['timer', 'w second', 'timer', 'w first', 'r second'], races: ['left', 'second'] },
];
