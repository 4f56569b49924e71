'use strict';
// Pages of pages/: scripts, and when they run.

const CLICK = ['--do', 'click:button'];

/** @type {import('../types').PageCase[]} */
exports.cases = [
  // ---- scripts
  {
    page: 'blocking-script.html',
    due: [
      'parse script sync', 'exec script', 'w ready', 'inline script load', 'close', 'back', 'parse p#text plain', 'w #text', 'exec script',
      'r ready', 'dcl', 'load',
    ],
  },
  {
    page: 'defer.html',
    due: [
      'parse script defer', 'parse p#text plain', 'w #text', 'exec script', 'r #text', 'inline script load', 'dcl',
    ],
  },
  {
    page: 'async.html',
    due: [
      'parse script async', 'exec script', 'r #text', 'eload script', 'load',
    ],
    races: ['#text'],
  },
  {
    page: 'script-text.html',
    due: ['w content of script#first', 'exec script#first', 'w count', 'r content of script#first', 'exec script#second', 'w count', 'timer', 'w count'],
  },
  { page: 'module-text.html', due: ['exec script#first', 'w seen', 'dcl'] },
  {
    page: 'module.html',
    words: ['--depth', 'globals'],
    due: [
      'parse script defer', 'parse p#text plain', 'parse script defer', 'exec script', 'w fromShared', 'w mine',
      'r #text', 'exec script', 'r fromShared', 'w fromSecond', 'dcl',
    ],
  },
  {
    page: 'module-inserted.html', // an inline one: what it imports is of its run
    due: ['timer', 'w first', 'new script async', 'exec script', 'w other', 'r first', 'r other', 'r second', 'w seen'],
    races: ['second'],
  },
  {
    page: 'modules-in-order.html', // the third is not in the list
    due: ['timer', 'new script async', 'new script async', 'exec script', 'w other', 'w told', 'on the end of a script', 'exec script', 'inline the end of a script behind',
      'run the end of a script', 'back', 'r told', 'r free'],
    besides: [['exec script', 'w free']],
    races: ['free'],
  },
  { page: 'module-awaited.html', due: ['new script async', 'dcl', 'exec script', 'w fromModule', 'load', 'run what load waits for', 'run all', 'r fromModule'], races: [] },
  { page: 'module-not-awaited.html', due: ['new script async', 'dcl', 'exec script', 'set 1'], besides: [['load', 'r fromModule']], races: ['fromModule'] },
  { page: 'data-block-later.html', due: ['timer', 'w allowed', 'new script#late async', 'exec script#late', 'r allowed', 'eload script#late', 'run loaded', 'r allowed'], races: [] },
  {
    page: 'last-script-throws.html',
    due: ['exec script', 'w last', 'on the end of a script', 'fire document readystatechange', 'run the end of a script', 'run states', 'r last', 'exec script', 'w ready'],
    races: [],
    throws: true,
  },
  {
    page: 'last-script-broken.html',
    due: ['exec script', 'inline window error', 'run fails', 'w last', 'fire document readystatechange', 'run the end of a script', 'run states', 'r last'],
    races: [],
    throws: true,
  },
  {
    page: 'ready-inserts.html',
    due: ['fire document readystatechange', 'run states', 'new img image', 'exec script', 'dcl', 'eload img', 'w pictured', 'load', 'run what load waits for', 'run all', 'r pictured'],
    races: [],
  },
  {
    page: 'import-call.html',
    due: [
      'exec script', 'every 0', 'tick', 'w lazyRan',
    ],
  },
  {
    page: 'inserted-script.html',
    due: [
      'exec script', 'on added', 'parse script async', 'exec script', 'w ready', 'eload script', 'run added',
      'r ready', 'load', 'run all',
    ],
  },
  {
    page: 'document-write.html',
    due: [
      'exec script', 'new p#written plain', 'w #written', 'w afterwards', 'w inside', 'parse p#next plain',
    ],
  },
  {
    page: 'script-written.html',
    due: [
      'exec script', 'r ready', 'parse script sync', 'exec script', 'w ready', 'inline script load', 'back', 'parse p#behind plain', 'exec script', 'r ready',
    ],
  },
  {
    page: 'writes-fallback.html',
    due: ['exec script', 'inline script error', 'run error', 'back', 'parse script sync', 'exec script', 'w library', 'back', 'parse p#after plain', 'exec script', 'r library'],
    races: [],
    losses: [/not served: 1 \(missing-library.js\)/],
  },
  {
    page: 'shadow-declarative.html',
    words: ['--do', 'click:#light'],
    due: [
      'exec script', 'w before', 'parse div#host plain', 'parse p#within plain', 'parse button#press plain', 'w click of button#press', 'parse script inline', 'exec script',
      'r before', 'w inside', 'parse script sync', 'exec script', 'w ready', 'parse b#light plain', 'w #light', 'parse script inline', 'exec script', 'r inside', 'w hid',
      'parse script inline', 'exec script', 'r hid', 'r ready', 'w seen', 'dcl', 'load',
    ],
    never: ['w #within', 'w #press', 'tick'],
  },
  {
    page: 'script-later.html',
    due: [
      'parse script#empty inline', 'timer', 'w config', 'new script#empty async', 'exec script#empty', 'r config', 'w ready', 'eload script#empty', 'run loaded', 'r config',
      'r ready',
    ],
  },
  {
    page: 'script-of-data.html',
    due: [
      'timer', 'w config', 'new script#data async', 'exec script#data', 'r config', 'w ready', 'eload script#data', 'run loaded', 'r config', 'r ready',
    ],
  },
  {
    page: 'script-inserted-later.html', // it has started: a further insertion is not before its run
    due: ['timer', 'on loaded', 'new script async', 'timer', 'w first', 'new script async', 'exec script', 'r first', 'r second', 'eload script', 'run loaded'],
    races: ['second'],
  },
  {
    page: 'script-load.html',
    due: [
      'parse script sync', 'exec script', 'inline script load', 'run load', 'w loaded', 'close', 'back', 'parse p#text plain', 'exec script', 'r loaded',
      'exec script', 'inline script load', 'run load', 'w second', 'back', 'exec script', 'inline script load', 'dcl', 'run parsed', 'r second',
    ],
  },
  {
    page: 'link-inserted-later.html', // a handler has declared it before; load does not wait for it
    due: ['parse link image', 'timer', 'w state', 'new link image'],
    besides: [['eload link', 'run styled', 'r state', 'w flag']],
    races: ['flag'],
  },
  {
    page: 'script-empty-source.html', // nothing waits for its error
    due: ['parse script plain', 'parse script plain', 'parse script plain', 'parse script sync', 'exec script', 'w ready', 'exec script', 'w late'],
    besides: [['eload script', 'w ofModule'], ['eload script', 'w ofDeferred'], ['eload script', 'w ofBlocking']],
    races: ['late'],
  },
  {
    page: 'script-fails.html',
    due: [
      'parse script sync', 'exec script', 'inline script error', 'run error', 'w failed', 'close', 'back', 'parse p#text plain', 'exec script', 'r failed',
      'parse script inline', 'exec script', 'inline window error', 'run broken', 'w faults', 'close', 'back', 'exec script', 'r faults',
      'exec script', 'inline script error', 'run error', 'w late', 'back', 'dcl', 'run parsed', 'r late',
    ],
    throws: true,
  },
  // the second script cannot declare its name, so no code of it runs
  { page: 'declared-twice.html', due: ['exec script', 'w declared', 'inline script load', 'exec script', 'inline script load', 'run load', 'r declared', 'w seen'], throws: true },
  {
    page: 'load-waits.html',
    due: [
      'on all', 'dcl', 'run parsed', 'new script async', 'exec script', 'w ready', 'eload script', 'close', 'on what load waits for', 'load',
      'run what load waits for', 'run what load waits for', 'run all', 'r ready', 'run again', 'r pictures', 'r chance',
    ],
    races: ['chance'],
  },
  {
    page: 'throws.html',
    due: [
      'exec script', 'w before', 'exec script', 'r before',
    ],
    throws: true,
  },
  {
    page: 'scripts-in-order.html',
    due: [
      'timer', 'new script async', 'new script async', 'exec script', 'w ready', 'on the end of a script', 'eload script', 'exec script',
      'inline the end of a script behind', 'run the end of a script', 'run the end of a script', 'back', 'r ready', 'exec script', 'run the end of a script',
      'r status',
    ],
  },
  {
    page: 'scripts-in-order-between.html',
    due: ['exec script', 'w ready', 'on the end of a script', 'exec script', 'w seen', 'exec script', 'run the end of a script', 'r ready'],
    races: ['content of head', 'seen'],
  },
  {
    page: 'scripts-in-order-late.html', // a handler has declared them before
    due: [
      'timer', 'on loaded', 'new script async', 'on loaded', 'new script async', 'exec script', 'w ready', 'on the end of a script', 'eload script', 'exec script',
      'inline the end of a script behind', 'run the end of a script', 'run the end of a script', 'back', 'r ready',
    ],
  },
  {
    page: 'ready-defer.html',
    due: [
      'parse script defer', 'parse script inline', 'exec script', 'w before', 'fire document readystatechange', 'run the end of a script', 'run onState', 'r before', 'w states',
      'close', 'on the end of parsing', 'exec script', 'inline the end of parsing behind', 'run the end of parsing', 'back', 'r states', 'dcl',
    ],
  },
  {
    page: 'ready-late.html',
    words: CLICK,
    due: [
      'parse p#text plain', 'w #text', 'parse script inline', 'on the end of parsing', 'exec script', 'w tail', 'on the end of parsing', 'dcl', 'inline button click',
      'set 0', 'timer', 'inline the end of parsing behind', 'run the end of parsing', 'run the end of parsing', 'close', 'back', 'r #text', 'r tail', 'w found',
    ],
    races: ['isReady of the closure of ?'], // the library's own: the click may come before DOMContentLoaded
  },
  {
    page: 'ready-at-once.html',
    words: CLICK,
    due: ['dcl', 'set 0', 'timer', 'r #early', 'w found', 'inline button click', 'set 0', 'timer', 'r #late', 'w seen', 'r #last', 'w last'],
    never: ['inline the end of parsing behind'],
    races: ['#late', '#last', 'isReady of the closure of ?'],
  },
  { page: 'drawing.svg', due: ['parse svg plain', 'parse script plain', 'parse rect#part plain', 'load'], losses: [/^XML pages, as XHTML and SVG/] },
  {
    page: 'script-broken.html', // nothing waits for it
    due: ['parse script async', 'exec script', 'inline window error', 'run broken', 'r before', 'w faults', 'back', 'eload script', 'run load', 'r faults'],
    throws: true,
  },
  {
    page: 'script-broken-later.html',
    due: ['w before', 'new script async', 'exec script', 'inline window error', 'run broken', 'r before', 'w faults', 'back', 'eload script', 'run loaded', 'r faults'],
    throws: true,
  },
  {
    page: 'import-map-broken.html',
    due: ['w before', 'parse script plain', 'parse script inline', 'exec script', 'inline window error', 'run broken', 'r before', 'w faults', 'back', 'exec script', 'r faults'],
    throws: true,
  },
  {
    page: 'module-broken.html',
    due: ['parse p#text plain', 'w #text', 'exec script', 'w before', 'exec script', 'inline window error', 'run broken', 'r before', 'r #text', 'w faults', 'back', 'exec script', 'r faults'],
    throws: true,
  },
  {
    page: 'module-imports-broken.html',
    due: ['w before', 'exec script', 'inline window error', 'run broken', 'r before', 'w faults', 'back', 'inline script load', 'r faults', 'dcl'],
    throws: true,
  },
  {
    page: 'module-broken-other.html', // not the error of the next deferred module, since an async one is to run too
    due: ['wfire error', 'run broken', 'r before', 'exec script', 'w before'],
    races: ['before', 'error of window'],
    throws: true,
  },
  {
    page: 'module-broken-inserted.html', // nor if a script is to run that code has inserted
    due: ['wfire error', 'run broken', 'r before', 'exec script', 'w before'],
    races: ['before', 'error of window'],
    throws: true,
  },
  { page: 'module-broken-async.html', due: ['wfire error', 'run broken', 'r before'], races: ['before', 'error of window'], throws: true },
  {
    page: 'no-javascript.html',
    due: [
      'parse script inline', 'parse script inline', 'exec script', 'w afterwards',
    ],
    losses: [/^scripts whose syntax is not known, kept as they are: 1 \(.*no-javascript\.html:3:14: Unexpected token\)$/],
    throws: true,
  },
  {
    page: 'function-text.html',
    due: [
      'exec script', 'w add', 'w text', 'w s', 'w list', 'w fromWorker',
    ],
  },
  { page: 'function-text.html', words: ['--depth', 'globals'], due: ['exec script', 'w add', 'w text', 'w s', 'w list', 'w fromWorker'] },
  { page: 'newer-syntax.html', due: ['exec script', 'w used', 'w disposed', 'exec script', 'w loaded'] },
  {
    page: 'class-and-call.html',
    due: ['exec script', 'w made', 'w Shop', 'r Shop', 'w Other', 'exec script', 'r Other', 'w seen'],
  },
  {
    page: 'hidden-variables.html',
    due: [
      'exec script', 'w five', 'w three', 'w one', 'w two', 'w four', 'exec script', 'w one', 'w four', 'r one', 'r two', 'r three', 'r five', 'w seen',
    ],
    words: ['--depth', 'globals'],
  },
  {
    page: 'hidden-variables.html',
    due: [
      'exec script', 'w one', 'w two', 'w three', 'w four', 'w five', 'exec script', 'w one', 'w four', 'r one', 'r two', 'r three', 'r five', 'w seen',
    ],
  },
  {
    page: 'own-arrays.html',
    due: [
      'w calls', 'parse button#go plain', 'new p#added plain', 'w #added', 'inline button#go click', 'w clicked',
      'timer', 'r calls',
    ],
  },
  {
    page: 'integrity.html',
    due: [
      'parse script sync', 'exec script', 'w ready', 'exec script', 'r ready',
    ],
  },
  { page: 'integrity-set.html', due: ['exec script', 'w ready'], losses: [/^integrity attributes that scripts set, dropped: 2$/] },
  {
    page: 'javascript-location.html',
    due: ['timer', 'r last', 'w other', 'timer', 'exec script', 'w added', 'r added'],
    never: ['w last'],
    losses: [/^accesses while nothing recorded ran: 1$/, /^variables that changed while nothing recorded ran: 1$/],
  },
  { page: 'integrity-map.html', due: ['exec script', 'w last', 'w total', 'r total of store'], losses: [/^integrity of import maps dropped/] },
];
