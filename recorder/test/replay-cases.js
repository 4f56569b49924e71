'use strict';
// Pages with one race: a location of it in words, what the user does, what differs where it is turned, in whichever order it was recorded (`null`:
// nothing that is seen), and the worst effect (replay/verdict.js). Those that are `isLong` are only in the longer run
// (recorder/README.md). Of `cases` test/looks.test.js has the patterns.

/**
 * Of two that write one text the later one's stands there.
 * @param {string} one
 */
const last = (one, other = 'late') => new RegExp(`text in the recorded order alone: "(${one}|${other})"; text in the other order alone: "(${one}|${other})"`);
const CONTENT = 'another content';

/**
 * Whether a location in words is that of a case: where an object was used first is the run's own, so the line is left out.
 * @param {string} text
 * @param {string} location
 */
exports.isAt = (text, location) => text.replace(/(first used at \S+):\d+$/, '$1') === location;

/** @type {import('./types').ReplayCase[]} */
exports.cases = [
  { page: 'race-async-parser.html', location: '#offer', worst: 'an uncaught error', differs: /error in the (recorded|other) order alone: TypeError.*text in the (recorded|other) order alone: "(Two for one|nothing)"/ },
  { page: 'race-async-async.html', location: 'theme', worst: CONTENT, isLong: true, differs: last('light', 'dark') },
  { page: 'race-reply-reply.html', location: 'shown', isLong: true, worst: CONTENT, differs: last('found for te', 'found for tea') },
  { page: 'race-nonce.html', location: 'shown', isLong: true, worst: CONTENT, differs: last('the first', 'the second') },
  { page: 'race-timeouts.html', location: 'price', worst: CONTENT, differs: last('price 0', 'price 7') },
  { page: 'race-timeout-image.html', location: 'load of img#dot', worst: 'a lost event', differs: /lost event in the (recorded|other) order: the load of img#dot: the load handler loaded/ },
  { page: 'race-click-handler.html', words: ['--do', 'click:#buy'], location: 'click of button#buy', worst: 'a lost act', differs: /lost event in the other order: the click at button#buy: the click handler onBuy/ },
  { page: 'race-click-handler.html', words: ['--slow', '3500', '--do', 'early click:#buy'], location: 'click of button#buy', isLong: true, worst: 'a lost act', differs: /lost event in the recorded order: the click at button#buy: the click handler onBuy/ },
  { page: 'race-typed-text.html', words: ['--do', 'wait:500', '--do', 'type:#field:tea'], location: 'value of input#field', worst: 'a lost input', differs: /value of input#field: books tea in the recorded order, books ea in the other order/ },
  { page: 'race-typed-text.html', words: ['--do', 'early type:#field:tea'], location: 'value of input#field', isLong: true, worst: 'a lost input', differs: /value of input#field: / },
  { page: 'race-frame-timeout.html', location: 'greeting', isLong: true, worst: 'an uncaught error', differs: /error in the (recorded|other) order alone: TypeError.*; text in the (recorded|other) order alone: "HELLO"/ },
  { page: 'race-animation-timeout.html', location: 'width', isLong: true, worst: CONTENT, differs: last('width 100', 'width 0') },
  { page: 'race-message-timeout.html', location: 'settings', worst: 'an uncaught error', differs: /error in the (recorded|other) order alone: TypeError/ },
  { page: 'race-parsed-async.html', location: 'plugin', worst: CONTENT, differs: /text in the (recorded|other) order alone: "a plugin"/ },
  { page: 'race-deferred-reply.html', location: 'renderFound', isLong: true, worst: 'an uncaught error', differs: /error in the (recorded|other) order alone: .*ReferenceError: renderFound is not defined/ },
  { page: 'race-flag.html', location: 'isLoaded', differs: null },
  { page: 'race-live.html', words: ['--live'], location: 'isLoaded', isLong: true, differs: null, says: /but in what differs by itself too: text in the (recorded|other) order alone: "drawn: / },
  { page: 'race-two-handlers.html', words: ['--do', 'click:#go'], location: 'steps', isLong: true, why: /both come from one act of the user/ },
  { page: 'race-enabled.html', words: ['--do', 'click:#button'], location: 'price', isLong: true, worst: CONTENT, differs: last('none') },
  { page: 'race-shown.html', words: ['--do', 'click:#button'], location: 'price', isLong: true, worst: CONTENT, differs: last('none') },
  { page: 'race-press-release.html', words: ['--do', 'click:#go'], location: 'state', why: /both come from one act of the user/ },
  // objects, closures and the page's tree
  { page: 'race-closure.html', location: 'price of the closure of shop() at race-closure.html:5', isLong: true, worst: CONTENT, differs: last('price 0', 'price 7') },
  { page: 'race-property.html', location: 'total of cart, the object first used at race-property.html', isLong: true, worst: CONTENT, differs: last('total 0', 'total 7') },
  { page: 'race-items.html', location: 'the items of list, the array first used at race-items.html', isLong: true, worst: CONTENT, differs: last('soon, late', 'late, soon') },
  { page: 'race-content.html', location: 'the content of p#out', isLong: true, worst: CONTENT, differs: last('soon') },
  { page: 'race-put-back.html', location: 'isOpen of page, the object first used at race-put-back.html', isLong: true, worst: CONTENT, differs: last('soon') },
];

/** @type {import('./types').ReplayCase[]} */
exports.more = [
  // observers, events that the browser brings, modules and frames with no file
  { page: 'race-intersection.html', location: 'state', worst: CONTENT, differs: last('seen') },
  { page: 'race-resize.html', location: 'state', isLong: true, worst: CONTENT, differs: last('sized') },
  { page: 'race-media.html', location: 'state', isLong: true, worst: CONTENT, differs: last('known') },
  { page: 'race-file-reader.html', location: 'state', isLong: true, worst: CONTENT, differs: last('read') },
  { page: 'race-database-open.html', location: 'state', isLong: true, worst: CONTENT, differs: last('opened') },
  { page: 'race-database.html', location: 'state', worst: CONTENT, differs: last('stored') },
  { page: 'race-event-source.html', location: 'state', isLong: true, worst: CONTENT, differs: last('told') },
  { page: 'race-worker.html', location: 'state', worst: CONTENT, differs: last('work done') },
  { page: 'race-import.html', location: 'state', isLong: true, worst: CONTENT, differs: last('lazy') },
  { page: 'race-data-frame.html', location: 'state', isLong: true, worst: CONTENT, differs: last('loaded') },
  { page: 'race-srcdoc.html', location: 'state', isLong: true, worst: CONTENT, differs: last('inside') },
  // harm and none
  { page: 'race-same-value.html', location: 'theme', isLong: true, differs: null },
  { page: 'race-counter.html', location: 'left', isLong: true, differs: null },
  { page: 'race-first-asks.html', location: 'cache', isLong: true, differs: null },
  { page: 'race-storage.html', location: 'localStorage.volume', isLong: true, worst: 'another state', differs: /localStorage\.volume: [37] in the recorded order, [37] in the other order/ },
  { page: 'race-title.html', location: 'unread', isLong: true, worst: CONTENT, differs: /title: news \([03]\) in the recorded order, news \([03]\) in the other order/ },
  { page: 'race-lines.html', location: 'last', isLong: true, worst: CONTENT, differs: /the order of the lines: (tea|milk) in the recorded order, (tea|milk) in the other order/ },
  { page: 'race-draft.html', words: ['--do', 'wait:500', '--do', 'type:#text:tea'], location: 'value of textarea#text', isLong: true, worst: 'a lost input', differs: /value of textarea#text: kept draft tea in the recorded order, / },
  { page: 'race-checkbox.html', words: ['--do', 'wait:500', '--do', 'click:#agree'], location: 'checked of input#agree', isLong: true, worst: 'a lost input', differs: /checked of input#agree: true in the recorded order, false in the other order/ },
  { page: 'race-restless.html', location: 'state', worst: CONTENT, differs: last('soon'), says: /the page never rests: compared after \d+ of its own turns in each run/ },
  { page: 'race-post-late.html', location: 'cart', worst: CONTENT, differs: last('bought', 'empty'), says: /; not sent again without --yes: POST http:\/\/shop\.invalid:1\/reset/ },
  { page: 'race-post-late.html', words: ['--replay', '--yes'], location: 'cart', isLong: true, worst: CONTENT, differs: last('bought', 'empty'), says: /^(?!.*not sent again)/ },
  { page: 'race-cleared.html', location: 'state', isLong: true, worst: CONTENT, differs: last('soon', 'none'), says: /the access that was recorded first did not come any more/ },
  { page: 'race-slow-note.html', words: ['--do', 'wait:3500'], location: 'came', isLong: true, differs: null, says: /but what the delay alone does too: text in the other order alone: "The network is slow"/ },
];
