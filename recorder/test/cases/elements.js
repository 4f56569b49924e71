'use strict';
// Pages of pages/: elements, what they load, and frames.

const CLICK = ['--do', 'click:button'];

/** @type {import('../types').PageCase[]} */
exports.cases = [
  // ---- elements and what they load
  {
    page: 'image-load.html',
    due: [
      'parse img#dot image', 'on load', 'eload img#dot', 'run load', 'w pictures', 'load', 'run all', 'r pictures',
    ],
  },
  {
    page: 'image-error.html',
    due: [
      'parse img#lost image', 'eload img#lost', 'run error', 'w missing', 'load', 'r missing',
    ],
  },
  {
    page: 'media-prototype.html',
    words: ['--do', 'wait:200', '--do', 'click:#film'],
    due: ['timer', 'w class of video#film', 'w style.width of video#film', 'r class of video#film', 'r style.width of video#film'],
    races: ['click of video#film', 'class of video#film', 'style.width of video#film'],
  },
  {
    page: 'image-later.html',
    due: [
      'timer', 'w size', 'new img#dot image', 'eload img#dot', 'run loaded', 'r size',
    ],
  },
  {
    page: 'image-lazy.html',
    due: [
      'parse img#lazy plain', 'eload img#lazy', 'w lazyLoaded',
    ],
    races: ['lazyLoaded'],
  },
  { page: 'image-becomes-lazy.html', due: ['exec script', 'parse img plain', 'eload img', 'w got'], races: ['got', 'gotToo'] },
  {
    page: 'object-embed.html',
    due: [
      'parse object#page frame', 'parse object#picture frame', 'parse embed#second frame', 'parse image#drawn image', 'eload object#page', 'run load', 'w inPage', 'load',
      'run all', 'r inPage', 'r shown', 'r embedded', 'r svg',
    ],
  },
  {
    page: 'sources-later.html',
    due: [
      'exec script', 'parse img#first image', 'timer', 'w size', 'new img#second image', 'eload img#second', 'run load', 'r size',
    ],
    races: ['late'],
  },
  {
    page: 'image-made.html', // a handler that another event sets late
    due: ['timer', 'new img image', 'w picture', 'eload img'],
    races: ['load of img'],
  },
  {
    page: 'image-cloned.html', // it loads before code inserts it
    due: ['timer', 'new img#second image', 'w kept', 'eload img#second'],
    races: ['order'],
  },
  {
    page: 'image-in-text.html',
    due: ['timer', 'new img#inside image', 'eload img#inside', 'run load', 'w seen'],
    races: ['order'],
  },
  {
    page: 'sources-of-sets.html',
    due: ['timer', 'w size1', 'new img#set image', 'eload img#set', 'r size1'],
    besides: [
      ['w size2', 'new img#chosen image', 'eload img#chosen', 'r size2'], ['w size3', 'new input#button image', 'eload input#button', 'r size3'],
      ['w size4', 'new image#drawn image', 'eload image#drawn', 'r size4'], ['w size5', 'new image#old image', 'eload image#old', 'r size5'],
      ['w size6', 'new image#based image', 'eload image#based', 'r size6'],
    ],
    races: ['seen1', 'seen2', 'seen3', 'seen4', 'seen5', 'seen6'],
  },
  {
    page: 'image-again.html', // the second load of `full` can be that of its first source: only what loads `empty` is after `chooses`
    due: ['timer', 'new img#empty image', 'eload img#empty', 'run load', 'timer', 'fire img#empty load', 'run load', 'r size'],
    besides: [['timer', 'new img#full image', 'eload img#full', 'run load', 'timer', 'fire img#full load', 'run load', 'r size']],
    races: ['size'],
  },
  {
    page: 'loads-in-order.html', // of the two timeouts, that with the greater delay is set first
    due: ['eload img#dot', 'w shown', 'on the load before', 'new img#dot image', 'eload img#dot', 'run the load before', 'w shown'],
    besides: [['eload iframe#inside', 'w told', 'on the load before', 'new iframe#inside frame', 'eload iframe#inside', 'run the load before', 'w told']],
    races: ['shownLate', 'src of img#other'],
  },
  {
    page: 'style-sheet.html',
    due: [
      'parse link image', 'eload link', 'run load', 'w styled', 'load', 'r styled',
    ],
    besides: [['parse style image', 'eload style', 'run load', 'w inside', 'load', 'r inside']],
    races: ['added'],
  },
  {
    page: 'link-kind-late.html', // their handlers come before what makes them load
    due: ['new link plain', 'parse link image', 'eload link', 'w sheetState', 'load', 'r sheetState', 'r partState', 'r fieldState'],
    besides: [['new input plain', 'parse input image', 'eload input', 'w fieldState'], ['new object plain', 'new object frame', 'eload object', 'w partState']],
    races: [],
  },
  {
    page: 'inner-html.html',
    due: [
      'new b#made plain', 'on click', 'w click of b#made', 'w #made', 'r #made', 'inline b#made click', 'run click',
      'w hit',
    ],
  },
  {
    page: 'storage.html',
    due: [
      'w localStorage.theme', 'w document.cookie', 'timer', 'r localStorage.theme', 'r document.cookie',
    ],
  },
  { page: 'storage-key.html', due: ['w localStorage.k', 'w localStorage.hidden', 'w localStorage.later'], never: ['w sessionStorage.none'] },
  {
    page: 'storage-properties.html',
    due: [
      'w localStorage.theme', 'w localStorage.size', 'r localStorage.shown', 'w localStorage.shown', 'w sessionStorage.step', 'w localStorage.gone',
      'timer', 'r localStorage.theme', 'r localStorage.size', 'r localStorage.shown', 'r sessionStorage.step', 'r localStorage.gone',
      'timer', 'r sessionStorage.step',
    ],
    never: ['r localStorage.length', 'r localStorage.getItem', 'w localStorage.key'],
  },

  // ---- custom elements that the parser makes
  {
    page: 'custom-parsed.html',
    due: ['parse x-card plain', 'w size', 'parse x-card#card plain', 'w #card', 'r size', 'w made', 'on heard', 'r made', 'w filled', 'on job', 'r filled', 'w after',
      'parse p#second plain', 'exec script', 'r made', 'r filled', 'r after'],
    never: ['inline x-card#card filled'],
    races: ['after'],
    losses: [/^dispatches that a parse step .* called/],
  },
  {
    page: 'custom-form.html', // the browser looks for what forms call only at elements of forms
    due: ['parse x-field plain', 'w disabled', 'parse x-field#field plain', 'w #field', 'w connected', 'w associated', 'exec script', 'r associated', 'r disabled', 'r connected', 'r never'],
    races: [],
  },
  // the definition comes before the element, or it upgrades it
  { page: 'custom-async.html', due: ['parse script async', 'parse x-box#box plain', 'exec script', 'r made'], races: ['made'] },
  {
    page: 'custom-in-order.html',
    due: ['fire x-card attributeChangedCallback', 'w lastSize', 'fire x-card connectedCallback', 'run the reaction before', 'run connectedCallback', 'w count',
      'fire x-card attributeChangedCallback', 'run the reaction before', 'run attributeChangedCallback', 'fire x-card connectedCallback', 'run the reaction before',
      'run connectedCallback', 'w count'],
    words: ['--slow', '300'],
    races: [],
  },
  { page: 'custom-in-table.html', due: ['fire x-card connectedCallback', 'w latest', 'fire x-card attributeChangedCallback', 'w latest', 'fire x-card connectedCallback'], words: ['--slow', '300'], races: ['latest'] },
  { page: 'custom-two-scripts.html', due: ['fire x-first connectedCallback', 'w latest', 'fire x-second attributeChangedCallback', 'w latest'], words: ['--slow', '700'], races: ['latest'] },
  {
    page: 'slot-change.html',
    due: ['parse p#one plain', 'fire slot slotchange', 'run the step of its first node', 'run slotted', 'r #one', 'w items', 'parse script inline', 'exec script',
      'run what the parser waited for', 'r items'],
    races: [],
  },
  { page: 'slot-change-late.html', due: ['parse script async', 'run slotted', 'w items'], races: ['#one', 'items'] },
  { page: 'custom-define.html', due: ['parse x-plain plain', 'parse x-heir plain', 'parse x-given plain'], races: [] },
  // what needs a definition, and what does not
  {
    page: 'custom-needed.html',
    due: ['timer', 'w customElements.x-menu', 'w customElements.x-other', 'timer', 'r customElements.x-late', 'timer', 'r customElements.x-menu', 'timer',
      'r customElements.x-other', 'timer', 'r customElements.x-menu', 'timer', 'w customElements.x-late'],
    races: ['customElements.x-late', 'customElements.x-menu', 'customElements.x-other'],
  },
  { page: 'custom-not-needed.html', due: ['timer', 'w customElements.x-menu', 'timer', 'w size of x-menu'], races: [] },
  {
    page: 'custom-constructor.html',
    due: ['on code whose caller is not seen', 'fire promise reactions code-1', 'run code whose caller is not seen', 'w made', 'parse x-tab#tab plain'],
    races: [],
  },

  // ---- frames
  {
    page: 'frames.html',
    due: [
      'parse iframe#inside frame', 'w load of iframe#inside', 'parse p#child plain', 'exec script', 'w fromChild',
      'dcl', 'load', 'eload iframe#inside', 'run load', 'w whole', 'load',
    ],
  },
  {
    page: 'frame-twice.html',
    due: [
      'parse iframe#inside frame', 'eload iframe#inside', 'run again', 'new iframe#inside frame',
      'parse p#second plain', 'w secondRan', 'dcl', 'load', 'eload iframe#inside',
    ],
  },
  {
    page: 'frame-pages-in-order.html',
    due: ['exec script', 'w told', 'w toldLate', 'eload iframe#inside', 'on the page before in the frame', 'timer', 'new iframe#inside frame',
      'exec script', 'run the page before in the frame', 'w told', 'exec script', 'run the page before in the frame', 'w toldLate'],
    races: [],
  },
  {
    page: 'frame-pages-of-two.html', // either timeout can be the first
    due: ['timer', 'new iframe#inside frame', 'w told', 'timer', 'new iframe#inside frame', 'w told'],
    races: ['src of iframe#inside', 'told', 'toldLate'],
  },
  {
    page: 'frame-in-place.html', // its empty page has a load event, and hands its window to the next one
    due: [
      'parse iframe#inside frame', 'load', 'eload iframe#inside', 'run fill', 'parse script sync', 'exec script', 'w given', 'parse p#shown plain',
      'parse script inline', 'exec script', 'r given', 'w taken', 'dcl', 'load', 'run end', 'w ended', 'eload iframe#inside',
    ],
    races: [],
  },
  {
    page: 'frame-touched.html', // its empty page is touched by code, and hands its window to the next one
    due: [
      'exec script', 'new iframe#inside frame', 'w early', 'parse script sync', 'exec script', 'w given', 'parse p#shown plain', 'parse script inline', 'exec script',
      'r given', 'w taken', 'dcl', 'load', 'run end', 'r early', 'w ended', 'eload iframe#inside', 'load',
    ],
  },
  {
    page: 'frame-left.html', // its empty page is touched by code, and a page of another origin comes before this is recorded
    due: ['new iframe#inside frame', 'w early', 'eload iframe#inside', 'load'],
  },
  {
    page: 'frame-function.html', // code of its empty page runs once a page of another origin is in it
    due: ['exec script', 'w given', 'eload script', 'eload iframe#inside', 'run other', 'r given', 'w answer'],
  },
  {
    page: 'frame-former.html', // once the next page has its window, the document of its empty page changes, for which its jQuery waits
    words: CLICK,
    due: [
      'new iframe#inside frame', 'w early', 'parse p#own plain', 'w #own', 'dcl', 'load', 'eload iframe#inside', 'run changed', 'w changes', 'load',
      'inline button click', 'set 0', 'timer', 'r #own', 'w found',
    ],
    never: ['w #former', 'inline the end of parsing behind'],
    races: ['#own'],
  },
  {
    page: 'frame-late.html', // the browser parses its page at once, and no listener hears the end of that
    due: ['new iframe#inside frame', 'w early', 'parse p#own plain', 'w #own', 'dcl', 'load', 'eload iframe#inside', 'run filled', 'r #own', 'w found'],
    races: [],
  },
  {
    page: 'frame-lazy.html',
    due: [
      'parse iframe#inside plain', 'new iframe#inside frame', 'parse p#child plain', 'exec script', 'dcl', 'load', 'eload iframe#inside', 'run load', 'w whole',
    ],
    races: ['whole'],
  },
  {
    page: 'frame-blank.html',
    due: [
      'on blankLoaded', 'new iframe frame', 'inline iframe load', 'run blankLoaded', 'w blanks', 'back',
      'new p#filled plain', 'w afterwards',
    ],
  },
  {
    page: 'frame-srcdoc.html',
    due: [
      'parse iframe frame', 'parse p#sd plain', 'exec script', 'w ofSrcdoc', 'dcl', 'load', 'eload iframe', 'load',
    ],
  },
  {
    page: 'frame-written.html',
    due: [
      'parse iframe#frame frame', 'exec script', 'new p#w plain', 'w #w', 'w written',
    ],
  },
  {
    page: 'frame-timers.html',
    due: [
      'run load', 'set 0', 'every 0', 'close', 'w mineRan',
    ],
    races: ['both', 'mineRan'],
  },

  // ---- a page without a race
  {
    page: 'no-race.html',
    words: CLICK,
    due: [
      'w clicked', 'exec script', 'w clicks', 'inline button#go click',
    ],
    races: [],
  },
];
