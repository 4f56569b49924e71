'use strict';
// Pages of pages/: dispatches of events, and what could hold a recording up.

const CLICK = ['--do', 'click:button'];

/** @type {import('../types').PageCase[]} */
exports.cases = [
  // ---- dispatches
  {
    page: 'click-late.html',
    words: CLICK,
    due: [
      'on onBuy', 'load', 'fire button#buy mousedown', 'inline button#buy focus', 'back', 'fire button#buy mouseup',
      'close', 'inline button#buy click', 'run onBuy', 'w count', 'close', 'back',
    ],
    races: ['click of button#buy'],
  },
  {
    page: 'click-early.html',
    words: ['--slow', '3500', '--do', 'early click:#buy', '--do', 'click:#buy'],
    due: [
      'parse script sync', 'inline button#buy click', 'exec script', 'on onBuy', 'inline button#buy click',
      'run onBuy', 'w bought',
    ],
    races: ['click of button#buy'],
  },
  {
    page: 'capture-and-bubble.html',
    words: CLICK,
    due: [
      'on bubbled', 'on captured', 'inline button#inner click', 'run captured', 'w order', 'run bubbled', 'w order',
    ],
    races: ['click of div#outer'],
  },
  {
    page: 'capture-at-target.html', // two of one phase have no order
    words: CLICK,
    due: ['on bubbles', 'on captures', 'on capturesToo', 'inline button click', 'run captures', 'w first', 'run capturesToo', 'w second', 'run bubbles', 'r first', 'r second'],
    races: ['click of button', 'one'],
  },
  {
    page: 'once.html',
    words: CLICK,
    due: [
      'run onlyOnce', 'w click of button#go', 'w runs',
    ],
    races: ['click of button#go'],
  },
  {
    page: 'removed-handler.html',
    words: CLICK,
    due: [
      'on gone', 'on stays', 'run stays', 'w yes',
    ],
    never: ['run gone', 'w never'],
    races: ['click of button#go'],
  },
  {
    page: 'registers-if-to-come.html',
    words: ['--slow', '2000'],
    due: ['on shows', 'on tooLate', 'w load of img#other', 'run shows', 'run tooLate'],
    never: ['w load of img#dot'],
    races: ['load of img#other'],
  },
  { page: 'signal-aborted.html', due: ['timer', 'timer', 'on hears', 'w app of window', 'timer', 'inline window app', 'run hears'], races: [] },
  {
    page: 'two-listeners.html',
    due: [
      'exec script', 'w click of button#go', 'exec script', 'w click of button#go',
    ],
    races: [],
  },
  {
    page: 'inline-click.html',
    due: [
      'w steps', 'inline button#go click', 'run clicked', 'w steps', 'close', 'back', 'w steps',
    ],
  },
  {
    page: 'two-inline-clicks.html',
    due: [
      'timer', 'w who', 'inline button#go click', 'run clicked', 'w last', 'back', 'timer', 'inline button#go click',
      'run clicked',
    ],
    races: ['who', 'last'],
  },
  {
    page: 'error-unheard.html',
    due: ['message', 'run fails', 'inline window error', 'r error of window', 'close', 'back', 'wfire unhandledrejection', 'r unhandledrejection of window',
      'timer', 'on reports', 'w error of window', 'on reportsToo', 'w unhandledrejection of window'],
    races: ['error of window', 'unhandledrejection of window'],
    throws: true,
  },
  {
    page: 'no-bubbles.html',
    words: ['--do', 'wait:400', '--do', 'click:#field'],
    due: ['on captures', 'w focus of document', 'inline input#field focus', 'r focus of document', 'run captures', 'inline input#field click', 'inline input#field change',
      'r change of document', 'run capturesChanges', 'inline input#field input', 'r input of document', 'r input of document', 'r input of window', 'run bubbles',
      'inline b opened', 'r opened of b', 'r opened of div#host', 'r opened of div#host', 'run atHost', 'fire div#box scroll', 'r scroll of div#box', 'close'],
    never: ['r focus of window', 'r error of document', 'r error of div#around', 'r change of window', 'r scroll of window', 'r scroll of document', 'r opened of window'],
    races: ['focus of document', 'error of window', 'change of document'],
  },
  {
    page: 'media-query.html',
    words: CLICK,
    due: ['inline button#go click', 'w isNarrow', 'close', 'back', 'fire MediaQueryList change', 'run changes', 'r isNarrow'],
    races: ['isNarrow'],
  },
  {
    page: 'throws-in-handler.html',
    words: CLICK,
    due: [
      'run thrower', 'inline window error', 'run onError', 'w count', 'close', 'back',
    ],
    races: ['click of button#go'],
    throws: true,
  },
  {
    page: 'form.html',
    words: ['--do', 'click:#box', '--do', 'click:#send'],
    due: [
      'inline input#box click', 'close', 'inline input#box input', 'w checked of input#box',
      'inline input#box change', 'run changed', 'inline button#send click', 'close', 'inline form#form submit',
      'run submitted',
    ],
    races: ['seen', 'change of input#box', 'submit of form#form'],
  },
  {
    page: 'form-reset.html', // the second form is not reset
    due: ['timer', 'r value of input#text', 'timer', 'inline form#form reset', 'close', 'w value of input#text', 'w checked of input#box', 'w value of select#list', 'w value of textarea#area', 'back',
      'inline form#kept reset', 'run prevents', 'close', 'back'],
    races: ['value of input#text', 'checked of input#box', 'value of select#list', 'value of textarea#area'],
  },
  {
    page: 'form-reset-by-user.html',
    words: CLICK,
    due: ['inline button click', 'close', 'inline form reset', 'close', 'w value of input#text', 'back', 'back'],
    races: ['value of input#text'],
  },
  {
    page: 'radio-buttons.html',
    words: ['--do', 'click:#big'],
    due: ['timer', 'w checked of input#outside2', 'w checked of input#outside', 'w value of select#list', 'inline input#big input', 'w checked of input#big', 'w checked of input#small'],
    races: ['checked of input#small', 'checked of input#outside', 'value of select#list'],
  },
  {
    page: 'typing.html',
    words: ['--do', 'type:#field:ab'],
    due: [
      'timer', 'w value of input#field', 'fire input#field keydown', 'inline input#field keypress',
      'inline input#field input', 'w value of input#field', 'fire input#field keyup',
    ],
    races: ['value of input#field'],
  },
  {
    page: 'typed-late-handler.html',
    words: ['--do', 'wait:300', '--do', 'type:#text:xy'],
    due: [
      'timer', 'r value of textarea#text', 'on pressed', 'fire textarea#text keydown', 'w value of textarea#text', 'inline textarea#text keypress', 'run pressed',
      'inline textarea#text input', 'w value of textarea#text',
    ],
    races: ['value of textarea#text', 'keypress of textarea#text'],
  },
  {
    page: 'typed-late-focus.html',
    words: ['--do', 'wait:300', '--do', 'type:#locked:a', '--do', 'type:#full:c', '--do', 'press:#mover:b'],
    due: [
      'fire textarea#locked keydown', 'run unlock', 'inline textarea#locked input', 'w value of textarea#locked', 'fire input#full keydown', 'run clear',
      'inline input#full input', 'w value of input#full', 'fire button#mover keydown', 'run move', 'inline input#second input', 'w value of input#second',
    ],
    races: ['keydown of textarea#locked', 'keydown of input#full', 'keydown of button#mover'],
  },
  {
    page: 'typed-kept-back.html',
    words: ['--do', 'wait:300', '--do', 'type:#text:a'],
    due: ['timer', 'r value of textarea#text', 'on pressed', 'fire textarea#text keydown', 'run pressed'],
    never: ['w value of textarea#text'],
    races: ['keydown of textarea#text'],
  },
  {
    page: 'address.html',
    words: ['--do', 'click:#link'],
    due: [
      'w visited', 'inline a#link click', 'close', 'every 0', 'back', 'tick', 'w visited',
    ],
    races: ['visited'],
  },
  {
    page: 'addresses.html', // in a frame, in SVG with a tab in it, and of a form
    words: ['--do', 'click:#svg', '--do', 'click:#send', '--do', 'click:#other'],
    due: [
      'tick', 'w fromFrame', 'parse p#inside plain', 'w shown',
      'inline text click', 'close', 'every 0', 'back', 'tick', 'w fromSvg',
      'inline form submit', 'close', 'every 0', 'back', 'tick', 'w fromForm',
      'inline form submit', 'close', 'every 0', 'back', 'tick', 'w fromButton',
    ],
    races: ['fromFrame', 'fromSvg', 'fromForm'],
  },
  {
    page: 'svg-scripts.html',
    words: ['--do', 'click:circle'],
    due: [
      'parse script inline', 'exec script', 'w isLess', 'parse script inline', 'exec script', 'r isLess', 'w both',
      'parse script sync', 'exec script', 'w fromFile', 'w click of circle', 'r fromFile', 'w sum', 'r sum', 'inline circle click', 'w clicked',
    ],
  },
  {
    page: 'svg-defer.html', // Chromium reads neither attribute there: both block the parser
    words: ['--keep'],
    due: ['parse script sync', 'exec script', 'w fromFile', 'parse script inline', 'exec script', 'r fromFile', 'w old', 'parse script inline', 'exec script', 'r old', 'w after', 'parse p#late plain'],
    races: [],
  },
  {
    page: 'ready-states.html',
    due: [
      'dcl', 'run onState', 'run parsed', 'close', 'load', 'run onState', 'run loaded', 'run shown', 'close',
    ],
  },

  // ---- mutation observers and `slotchange` of the last parse steps: DOMContentLoaded comes next
  {
    page: 'ready-observed.html',
    due: ['w #end', 'run look', 'w observed', 'on the end of parsing', 'close', 'dcl', 'run the end of parsing', 'run parsed', 'r #end', 'r observed', 'w ready', 'close', 'load', 'r ready'],
    never: ['fire document DOMContentLoaded'],
    races: [],
  },
  {
    page: 'ready-observed-states.html',
    due: [
      'w #end', 'run look', 'w observed', 'on the end of parsing', 'close', 'dcl', 'run the end of parsing', 'run onState', 'r #end', 'w state', 'run parsed', 'r state', 'w ready', 'close',
      'load', 'run onState', 'run all', 'r ready',
    ],
    never: ['fire document readystatechange', 'fire document DOMContentLoaded', 'fire window DOMContentLoaded'],
    races: [],
  },
  {
    page: 'ready-slotted.html',
    due: ['w #end', 'fire slot slotchange', 'run slotted', 'w items', 'on the end of parsing', 'dcl', 'run the end of parsing', 'run parsed', 'r #end', 'w ready', 'close', 'load', 'r ready'],
    never: ['fire document DOMContentLoaded'],
    races: [],
  },
  {
    page: 'ready-removed.html',
    due: ['w #end', 'run look', 'w DOMContentLoaded of document', 'close', 'dcl', 'r DOMContentLoaded of document', 'close', 'load', 'run all', 'r #end'],
    never: ['run parsed', 'fire document DOMContentLoaded'],
    races: ['#end', 'DOMContentLoaded of document'],
  },
  {
    page: 'ready-unobserved.html',
    due: ['w #end', 'dcl', 'r DOMContentLoaded of document', 'run parsed', 'r #end', 'w ready', 'close', 'load', 'run all', 'r ready'],
    never: ['fire document DOMContentLoaded', 'run the end of parsing'],
    races: [],
  },
  {
    page: 'observer-adds-image.html',
    due: ['parse p plain', 'run look', 'new img image', 'close', 'dcl', 'eload img', 'w width', 'load', 'run what load waits for', 'run all', 'r width'],
    races: [],
  },

  // ---- what could hold a recording up
  {
    page: 'dialogs.html',
    words: [...CLICK, '--do', 'click:#away', '--do', 'wait:300'],
    due: ['exec script', 'w asked', 'inline button click', 'w answered', 'inline a#away click', 'wfire beforeunload', 'run leaving'],
    races: ['beforeunload of window'],
    losses: [/steps to another page not followed: 1/],
  },
  { page: 'dialogs-many.html', due: ['exec script', 'w n', 'w after', 'exec script', 'r after', 'w seen'], races: [] },
  {
    page: 'opened-window.html',
    words: CLICK,
    due: ['inline button click', 'w opened', 'w after', 'close'],
    losses: [/windows that the page opened, closed at once: 1/],
  },
  {
    page: 'download.html',
    words: ['--do', 'click:#file', ...CLICK],
    due: ['inline a#file click', 'inline button click', 'w saved'],
  },
  {
    page: 'stops.html',
    due: ['exec script', 'w behindDebugger', 'w behindPrint', 'dcl', 'load'],
  },
  {
    page: 'endless-handler.html',
    words: [...CLICK, '--time', '4'],
    due: ['on click', 'dcl', 'load'],
    losses: [/what came later: the recording ended before the page was quiet/],
  },
];
