'use strict';
// Pages of pages/: what an event comes after: messages, promises, callbacks, events that a call queues.

/** @type {import('../types').PageCase[]} */
exports.cases = [
  // ---- messages
  {
    page: 'message-handler.html',
    due: ['timer', 'w settings', 'on got', 'timer', 'w sent', 'post', 'message', 'inline ? message', 'run got', 'r settings', 'r sent', 'back'],
    races: [],
  },
  {
    page: 'port-started-later.html',
    due: ['timer', 'w sent', 'post', 'timer', 'w settings', 'on the start of the port', 'message', 'inline ? message', 'run the start of the port',
      'run got', 'r settings', 'r sent'],
    races: [],
  },
  {
    page: 'port-started-later.html',
    version: 2,
    due: ['new ? plain', 'timer', 'w settings', 'on the start of the port', 'fire ? message', 'run the start of the port', 'run got', 'r settings', 'r sent'],
    races: [],
  },

  {
    page: 'port-to-frame.html',
    due: ['run hands', 'post', 'message', 'run takes', 'on got', 'on the start of the port', 'timer', 'w settings', 'post', 'message', 'run the start of the port',
      'run got', 'w seen', 'r settings'],
    races: [],
  },

  // ---- missing before: frames of two windows, observers of the parser, objects of the window, dispatches that nobody hears, texts
  {
    page: 'frames-of-two-windows.html',
    due: ['run load', 'every 0', 'ask', 'every 0', 'anim', 'w last', 'tick', 'w last', 'w inFrame', 'on the end of an animation callback', 'tick',
      'run the end of an animation callback', 'w inFrame'],
    races: ['both', 'last'],
  },
  {
    page: 'observes-parser.html',
    due: ['w #late', 'run look', 'on what the parser waited for', 'exec script', 'run what the parser waited for', 'r ready'],
    races: ['#late'],
  },
  {
    page: 'listens-late-at-window.html',
    due: ['parse document plain', 'new Navigation plain', 'timer', 'w navigate of Navigation', 'timer', 'inline Navigation navigate',
      'r navigate of Navigation', 'run seen'],
    races: ['navigate of Navigation'],
  },
  {
    page: 'listens-too-late.html',
    due: ['timer', 'r app:ready of document', 'r filled of body', 'r changed of EventTarget', 'timer', 'on seen', 'w app:ready of document'],
    never: ['inline document app:ready'],
    races: ['app:ready of document', 'changed of EventTarget', 'filled of body'],
  },
  {
    page: 'listens-in-time.html',
    due: ['timer', 'on seen', 'w app:ready of document', 'timer', 'inline document app:ready', 'r app:ready of document', 'run seen', 'back'],
    races: ['app:ready of document'],
  },
  {
    page: 'text-later.html',
    due: ['parse script async', 'w content of div#data', 'r content of div#data'],
    races: ['content of div#data'],
  },

  // ---- promises that are settled before a reaction is asked for
  {
    page: 'settled-before.html',
    due: ['reply', 'w items', 'inline what settled the promise settled', 'timer', 'r ready', 'run what settled the promise', 'run uses', 'r items'],
    besides: [['timer', 'w queue', 'w count', 'inline what settled the promise settled', 'on what settled the promise', 'timer', 'run what settled the promise',
      'run first', 'w count']],
    races: ['queue'],
  },
  {
    page: 'settled-object.html',
    due: ['reply', 'w items', 'inline what settled the promise settled', 'reply', 'w hidden', 'inline what settled the promise settled', 'reply', 'w caught',
      'inline what settled the promise settled', 'timer', 'run what settled the promise', 'run await', 'r items', 'timer', 'run what settled the promise', 'r hidden', 'timer',
      'run what settled the promise', 'r caught', 'timer', 'r last', 'timer', 'r either'],
    races: ['either', 'last'],
  },
  {
    page: 'settled-by-await.html',
    due: ['timer', 'on await', 'timer', 'w items', 'inline what settled the promise settled', 'on what settled the promise', 'back', 'run await', 'w who', 'timer',
      'run what settled the promise', 'run await', 'r items', 'w who'],
    races: ['who'],
  },
  {
    page: 'reactions-in-order.html', // of the two timeouts, that with the greater delay is set first
    due: ['reply', 'w items', 'on an earlier reaction at the promise', 'timer', 'run an earlier reaction at the promise', 'run await', 'w items',
      'timer', 'run an earlier reaction at the promise', 'run await', 'w items'],
    races: ['items'],
  },
  {
    page: 'reactions-of-two-clicks.html',
    words: ['--do', 'click:#go', '--do', 'wait:300', '--do', 'click:#go'],
    due: ['run click', 'reply', 'w used', 'on an earlier reaction at the promise', 'run click', 'run an earlier reaction at the promise', 'w used'],
    races: [],
  },

  {
    page: 'module-of-two.html',
    // which of the two modules comes first is the run's own
    due: ['exec script', 'w fromShared', 'on the end of an imported module', 'back', 'exec script', 'run the end of an imported module', 'back',
      'timer', 'run one of several promises', 'run await', 'r fromShared'],
    races: ['last'],
  },
  // The network brings the first importer first, or the second one. In the second case the race at `flag` is missing: docs/lost.md.
  {
    page: 'module-two-importers.html',
    words: ['--slow', '1000'],
    due: ['w flag', 'exec script#first', 'r flag', 'on the end of an imported module', 'exec script#second', 'run the end of an imported module'],
    races: ['flag'],
  },
  {
    page: 'module-two-importers.html',
    words: ['--slow', '1200'],
    due: ['w flag', 'exec script#second', 'r flag', 'on the end of an imported module', 'exec script#first', 'run the end of an imported module'],
    races: [],
  },

  // ---- what always comes in one order
  {
    page: 'toggle-after-timer.html',
    words: ['--do', 'click:#opens'],
    due: ['run click', 'w step', 'close', 'new div#shown plain', 'back', 'timer', 'fire div#shown toggle', 'run toggle', 'r step'],
    races: [],
  },
  {
    page: 'pointer-lost.html',
    words: ['--do', 'click:#slider'],
    due: ['fire button#slider pointerup', 'w drag', 'close', 'inline button#slider mouseup', 'close', 'inline button#slider lostpointercapture', 'r drag', 'back',
      'inline button#slider click', 'r drag', 'back', 'back'],
    races: [],
  },
  {
    page: 'events-of-two-clicks.html',
    words: ['--do', 'click:#next', '--do', 'wait:300', '--do', 'click:#next', '--do', 'wait:300'],
    due: ['fire window hashchange', 'w current', 'on the event before', 'run click', 'fire window hashchange', 'run the event before', 'run changed', 'w current'],
    besides: [['fire details#details toggle', 'on the event before', 'fire details#details toggle', 'run the event before', 'run toggles'],
      ['fire div#box transitionend', 'on the event before', 'fire div#box transitionend', 'run the event before', 'run fades'],
      ['fire div#list scroll', 'on the event before', 'fire div#list scroll', 'run the event before', 'run scrolls'],
      ['fire window unhandledrejection', 'on the event before', 'fire window unhandledrejection', 'run the event before', 'run rejects']],
    races: [],
  },
  { page: 'transition-by-ancestor.html', due: ['timer', 'w state', 'new div#panel plain', 'fire div#panel transitionend', 'r state', 'w seen'], races: [] },
  {
    page: 'database-order.html',
    due: ['run makes', 'run put', 'w hasPut', 'run the request before', 'run opens', 'r hasPut', 'run first', 'w got', 'run the request before', 'run second',
      'r got', 'run the request before', 'run done', 'r got'],
    races: [],
  },
  {
    page: 'databases-in-order.html', // no path leads from one call to the other for `other`, and `a` and `b` are two
    due: ['send', 'reply', 'run gone', 'w fresh', 'reply', 'run the request before', 'run opened', 'r fresh'],
    races: ['last', 'latest'],
  },
  {
    page: 'database-cursor.html', // a change of version is a transaction, and so is what a cursor asks for in one; two transactions have no order
    due: ['run walks', 'run updates', 'w updated', 'run the request before', 'run ends', 'r updated', 'w changed', 'run the request before', 'run opens', 'r changed'],
    besides: [['run finds', 'run counts', 'r deleted', 'run the request before', 'run deletes', 'w deleted']],
    races: ['other'],
  },
  {
    page: 'motion-of-two.html',
    due: ['timer', 'timer', 'w state', 'fire div#panel transitionend', 'r state'],
    never: ['new div#panel plain'],
    races: ['state', 'transitionend of div#panel'],
  },
  { page: 'motion-of-new.html', due: ['timer', 'message', 'w state', 'fire p animationstart', 'r state'], races: ['state'] },
  { page: 'scrolls-by-code.html', due: ['timer', 'w isMoving', 'new document plain', 'fire document scroll', 'r isMoving'], races: [] },
  {
    page: 'selects-by-code.html',
    due: ['timer', 'w isSelecting', 'new input#field plain', 'fire input#field selectionchange', 'r isMarking', 'fire input#field select', 'r isSelecting'],
    races: [],
  },
  { page: 'storage-twice.html', due: ['run sets', 'fire window storage', 'w last', 'fire window storage', 'run the event before', 'w last'], races: [] },
  {
    page: 'frame-empty.html',
    due: ['parse iframe#empty frame', 'eload iframe#empty', 'w loaded', 'exec script', 'run what the parser waited for', 'r loaded',
      'parse iframe#blank frame', 'eload iframe#blank', 'w loadedToo', 'exec script', 'run what the parser waited for', 'r loadedToo'],
    races: [],
  },
  {
    page: 'view-transition-order.html',
    due: ['tick', 'w state', 'run isReady', 'w state', 'run startViewTransition', 'run isDone', 'r state'],
    races: [],
  },
  { page: 'view-transition-waits.html', due: ['tick', 'reply', 'w state', 'run startViewTransition', 'run isDone', 'r state'], races: [] },
  { page: 'view-transition-skipped.html', due: ['tick', 'w state', 'timer', 'run isNot', 'r state'], races: ['state'] },
  { page: 'view-transition-late.html', due: ['tick', 'run isReady', 'w state', 'timer', 'run isDone', 'r state'], races: ['state'] },

  // ---- a dialog's `close`, which is never merged; a request that code aborts
  {
    page: 'dialog-twice.html',
    due: ['timer', 'new dialog#dialog plain', 'new dialog#dialog plain', 'fire dialog#dialog close', 'w last', 'on the event before', 'fire dialog#dialog close',
      'run the event before', 'w last'],
    races: [],
  },
  { page: 'dialog-of-two.html', due: ['fire dialog#dialog close', 'w last', 'fire dialog#dialog close', 'w last'], never: ['on the event before'], races: ['last', 'open of dialog#dialog'] },
  { page: 'fetch-aborted.html', due: ['timer', 'send', 'post', 'message', 'w state', 'r state', 'w seen'], never: ['reply'], races: [] },

  // ---- orders and accesses that are lost (docs/lost.md)
  {
    page: 'document-open.html',
    due: ['load', 'timer', 'new img#dot image', 'inline document DOMContentLoaded', 'eload img#dot', 'w state', 'wfire load', 'w seen'],
    races: ['load of window'],
  },
  { page: 'media-load.html', due: ['fire audio#sound loadeddata', 'w state', 'load', 'r state'], races: ['state'] },
  { page: 'rel-later.html', due: ['timer', 'w state', 'fire link#sheet load', 'r state'], races: ['load of link#sheet', 'state'] },
  {
    page: 'form-navigates.html',
    words: ['--do', 'click:#button'],
    due: ['inline form#form submit', 'w sent', 'back', 'back', 'fire Navigation navigate', 'r sent'],
    races: ['navigate of Navigation', 'sent', 'submit of form#form'],
  },
  {
    page: 'handler-names.html',
    words: ['--do', 'click:#button'],
    due: ['timer', 'w count of input#button', 'inline input#button click', 'run click', 'w seen'],
    never: ['r count', 'r count of input#button'],
    races: [],
  },
  { page: 'written-late.html', due: ['timer', 'new script plain', 'r late', 'fire document DOMContentLoaded', 'close'], never: ['w late'], races: ['content of html'] },

  // ---- timeouts
  {
    page: 'nested-clamp.html',
    due: ['timer', 'w levels', 'set 4', 'post', 'message', 'set 0', 'timer', 'w last', 'timer', 'w last'],
    races: ['last'],
  },

  // ---- promises of several promises, await, modules that wait
  {
    page: 'promise-all.html',
    due: ['on reaction', 'timer', 'w first', 'on one of several promises', 'timer', 'w second', 'inline promise reactions then',
      'run one of several promises', 'run reaction', 'r first', 'r second', 'close', 'back'],
    races: [],
  },
  {
    page: 'promise-all-await.html',
    due: ['on await', 'timer', 'on one of several promises', 'timer', 'inline promise reactions then', 'run one of several promises', 'run await',
      'r first', 'r second', 'close', 'back'],
    races: [],
  },
  {
    page: 'promise-any.html',
    due: ['timer', 'w first', 'w second', 'timer', 'w second'],
    never: ['on one of several promises'],
    races: ['second'],
  },
  {
    page: 'promise-settled.html',
    due: ['on reaction', 'timer', 'w second', 'timer', 'w first', 'inline promise reactions then', 'run one of several promises',
      'run reaction', 'r first', 'r second'],
    races: [],
  },
  {
    page: 'await-asker.html',
    due: ['timer', 'w others', 'on await', 'timer', 'w asked', 'on await', 'timer', 'w settled', 'inline promise reactions then', 'run await', 'r others',
      'back', 'inline promise reactions then', 'run await', 'r asked'],
    races: [],
  },
  { page: 'await-loop.html', due: ['exec script', 'w last', 'dcl'], never: ['inline promise reactions then'], races: [] },
  { page: 'await-nothing.html', due: ['fire promise reactions then-1', 'run await', 'w seen', 'run await', 'w seenToo', 'close'], races: [] },
  { page: 'module-waits.html', due: ['exec script', 'timer', 'w settled', 'inline promise reactions then', 'run await', 'w inModule', 'w seen'], races: [] },
  {
    page: 'import-twice.html',
    due: ['every 0', 'tick', 'w lazy', 'every 0', 'tick', 'w lazyToo'],
    races: [],
  },

  // ---- callbacks and observers
  { page: 'intersection-twice.html', due: ['fire promise reactions IntersectionObserver-1', 'w times', 'fire promise reactions IntersectionObserver-1', 'w times'], races: [] },
  { page: 'observe-later.html', due: ['timer', 'w settings', 'fire promise reactions ResizeObserver-1', 'run the call of observe()', 'run resized', 'r settings'], races: [] },
  {
    page: 'callback-promises.html', // nothing orders the two callbacks of a kind
    due: ['tick', 'run postTask', 'run isPosted', 'r posted', 'w last', 'tick', 'run request', 'run isHeld', 'r held', 'w last'],
    races: ['last'],
  },
  { page: 'callbacks.html', due: ['w asked', 'every 0', 'every 0', 'tick', 'w seen'], races: [] },
  { page: 'locks.html', due: ['every 0', 'tick', 'w last', 'tick', 'w last'], races: ['last'] },
  {
    page: 'view-transition.html',
    due: ['timer', 'w asked', 'every 0', 'on done', 'tick', 'r asked', 'w seen', 'run startViewTransition', 'run done', 'r seen'],
    races: [],
  },
  { page: 'geolocation.html', due: ['timer', 'w asked', 'every 0', 'tick', 'r asked', 'w seen'], races: [] },
  {
    page: 'registry.html',
    due: ['timer', 'w registered', 'on the call of register()', 'fire promise reactions FinalizationRegistry-1', 'run the call of register()', 'run gone',
      'r registered', 'w seen'],
    races: [],
  },
  {
    page: 'reporting.html',
    due: ['timer', 'w observed', 'on the call of observe()', 'fire promise reactions ReportingObserver-1', 'run the call of observe()', 'run told', 'r observed',
      'w seen'],
    races: [],
  },
  { page: 'scheduler-yield.html', due: ['w part', 'fire promise reactions then-1', 'run await', 'w part'], races: [] },
  { page: 'stream-read.html', due: ['w asked', 'reply', 'run await', 'w got', 'w whole'], races: [] },

  // ---- events that a call queues
  {
    page: 'hash-by-timers.html',
    due: ['timer', 'w first', 'new window plain', 'fire window hashchange', 'run changed', 'w last', 'timer', 'w second', 'new window plain', 'fire window hashchange'],
    never: ['wfire hashchange'],
    races: ['first', 'last', 'second', 'seen'],
  },
  {
    page: 'hash-by-click.html',
    words: ['--do', 'click:#link'],
    due: ['inline a#link click', 'w clicked', 'close', 'new window plain', 'fire window hashchange', 'run changed', 'r clicked'],
    races: ['hashchange of window'],
  },
  { page: 'history-back.html', due: ['timer', 'w asked', 'new window plain', 'fire window popstate', 'run stepped', 'r asked'], races: [] },
  {
    page: 'navigation-back.html',
    due: ['timer', 'w asked', 'new Navigation plain', 'new window plain', 'fire Navigation navigate', 'run goes', 'r asked', 'fire window popstate', 'run stepped', 'r asked'],
    races: [],
  },
  { page: 'navigation-twice.html', due: ['w asked', 'wfire popstate', 'run stepped', 'r asked'], races: ['asked', 'popstate of window'] },
  {
    page: 'rejections.html',
    due: ['timer', 'w first', 'new window plain', 'fire window unhandledrejection', 'run unhandled', 'r first', 'timer', 'w second', 'new window plain',
      'fire window unhandledrejection', 'r second'],
    races: ['last'],
  },
  {
    page: 'rejections-of-one.html',
    due: ['timer', 'new window plain', 'fire window unhandledrejection', 'w last', 'close', 'fire window unhandledrejection', 'w last'],
    races: [],
  },
  { page: 'toggles.html', due: ['set 5', 'set 1', 'set 0', 'w isShown', 'new div#over plain', 'fire div#over toggle', 'run toggle'], never: ['fire dialog#dialog cancel'], races: [] },
  { page: 'popover-closed.html', due: ['timer', 'w isShown', 'new div#first plain', 'fire div#first toggle', 'run toggle', 'r isShown'], races: [] },
  { page: 'popover-stays.html', races: ['isShown'] },
  {
    page: 'storage-event.html',
    due: ['timer', 'w first', 'new window plain', 'fire window storage', 'run stored', 'timer', 'w second', 'new window plain', 'fire window storage', 'r second'],
    races: ['last'],
  },
  { page: 'transition.html', due: ['timer', 'w asked', 'new p#text plain', 'fire p#text transitionend', 'run faded', 'r asked'], races: [] },
  {
    page: 'animation.html',
    due: ['timer', 'w asked', 'new p#text plain', 'fire p#text animationstart', 'run begins', 'r asked', 'close', 'on the event before', 'fire p#text animationend',
      'run the event before', 'run ends', 'r started'],
    races: [],
  },
  {
    page: 'media-calls.html',
    words: ['--do', 'click:button'],
    due: ['timer', 'w change', 'timer', 'w chosen', 'new audio#sound plain', 'fire audio#sound loadedmetadata', 'run known', 'r chosen', 'close',
      'on the event before', 'fire audio#sound canplay', 'run the event before', 'run ready', 'r seconds', 'inline button click', 'w asked', 'new audio#sound plain',
      'fire audio#sound play', 'run begins', 'r asked', 'close', 'on the event before', 'fire audio#sound ended', 'run the event before', 'run over', 'r isPlaying'],
    races: ['click of button'],
  },
  {
    page: 'played.html',
    words: ['--do', 'click:button', '--do', 'wait:1000'],
    due: ['fire audio#sound canplay', 'w isReady', 'on the event before', 'inline button click', 'new audio#sound plain', 'fire audio#sound playing', 'run the event before',
      'r isReady', 'w state', 'close', 'on play()', 'fire promise reactions then-1', 'run play()', 'run told', 'r state', 'fire audio#sound timeupdate',
      'run what loaded it', 'run moves', 'r seconds', 'r state'],
    races: ['click of button', 'loadedmetadata of audio#sound'],
  },
  {
    page: 'played-either-source.html',
    words: ['--do', 'click:button', '--do', 'wait:1000'],
    due: ['timer', 'fire audio canplay', 'w last', 'inline button click', 'fire audio playing', 'run begins', 'w last'],
    never: ['on what loaded it', 'run what loaded it'],
    races: ['click of button', 'last'],
  },
  {
    page: 'played-by-itself.html',
    words: ['--do', 'click:button', '--do', 'wait:1000'],
    due: ['inline button click', 'fire audio#sound loadeddata', 'w isReady', 'close', 'on what loaded it', 'fire audio#sound playing', 'run what loaded it', 'r isReady'],
    races: ['click of button'],
  },
  { page: 'motions-of-one.html', due: ['timer', 'fire p#first transitionend', 'w last', 'fire p#second transitionend', 'w last'], never: ['on the event before'], races: ['last'] },
  {
    page: 'media-in-order.html',
    due: ['fire audio#sound loadstart', 'w started', 'on the event before', 'fire audio#sound loadeddata', 'run the event before', 'r started'],
    races: ['got'],
  },
  {
    page: 'media-unordered.html',
    due: ['timer', 'new audio#sound plain', 'fire audio#sound volumechange', 'run louder', 'fire audio#sound volumechange', 'run louder'],
    races: ['last', 'loadedmetadata of audio#sound', 'place'],
  },
  {
    page: 'full-screen.html',
    words: ['--do', 'click:button'],
    due: ['inline button click', 'run asks', 'w asked', 'new p#text plain', 'fire p#text fullscreenchange', 'run filled', 'r asked'],
    races: ['click of button'],
  },
  {
    page: 'navigate-by-click.html',
    words: ['--do', 'click:#link'],
    due: ['inline a#link click', 'run clicked', 'w asked', 'close', 'inline Navigation navigate', 'run goes', 'r asked', 'on handler', 'run handler', 'w shown',
      'new Navigation plain', 'back', 'fire Navigation navigatesuccess', 'run over', 'r shown'],
    races: ['click of a#link'],
  },
  {
    page: 'navigate-ends.html',
    due: ['timer', 'inline Navigation navigate', 'run begins', 'back', 'inline Navigation navigatesuccess', 'run ends', 'back', 'timer', 'inline Navigation navigate',
      'inline Navigation navigatesuccess', 'run ends', 'timer', 'w asked', 'fire Navigation navigate', 'run begins', 'on the event before',
      'fire Navigation navigatesuccess', 'run the event before', 'run ends'],
    races: [],
  },
  {
    page: 'navigate-ends-by-click.html',
    words: ['--do', 'click:#link'],
    due: ['run click', 'w busy', 'inline Navigation navigate', 'run begins', 'back', 'inline Navigation navigatesuccess', 'run ends', 'back', 'inline window popstate',
      'run steps', 'back'],
    races: [],
  },
  {
    page: 'navigate-waits.html',
    due: ['timer', 'inline Navigation navigate', 'run goes', 'reply', 'w shown', 'new Navigation plain', 'fire Navigation navigatesuccess', 'run over', 'r shown'],
  },
  { page: 'navigate-sooner.html', due: ['w other', 'w shown', 'fire Navigation navigatesuccess', 'r shown', 'r other'], races: ['other'] },
  {
    page: 'navigate-by-script.html',
    due: ['timer', 'w asked', 'inline Navigation navigate', 'run goes', 'r asked', 'close', 'back', 'w shown', 'r shown', 'w behind'],
    races: [],
  },
  { page: 'focus-late.html', due: ['timer', 'w focus of window'], never: ['wfire focus'], races: [] },
  // messages of a frame that is not recorded come after what made the frame
  { page: 'message-sandboxed.html', due: ['run starts', 'on heard', 'fire iframe message', 'run heard', 'fire iframe message', 'run heard'], races: [] },
  { page: 'message-sandboxed-early.html', due: ['timer', 'on heard', 'fire iframe message', 'run heard'], races: ['message of window'] },
  {
    page: 'message-source.html',
    due: ['run asks', 'post', 'message', 'run child', 'post', 'close', 'back', 'message', 'run heard', 'r answers'],
    races: [],
  },
  {
    page: 'removed-too-late.html', // the removal finds nothing, as the event came before
    due: ['on answers', 'w custom of button#ask', 'eload img', 'inline button#ask custom', 'run answers', 'w custom of button#ask', 'timer', 'r custom of button#ask'],
    races: ['custom of button#ask'],
  },
  {
    page: 'removed-too-early.html', // the removal finds nothing, as the registration came after
    due: ['eload img', 'r custom of EventTarget', 'timer', 'on answers', 'w custom of EventTarget'],
    races: ['custom of EventTarget'],
  },
  {
    page: 'attribute-removed.html',
    due: ['eload img', 'w click of button#one', 'w click of button#two', 'w click of button#three', 'w click of button#four', 'timer', 'inline button#one click', 'r click of button#one'],
    races: ['click of button#four', 'click of button#one', 'click of button#three', 'click of button#two'],
  },
  {
    page: 'opened-anew.html',
    due: ['on sized', 'w custom of window', 'timer', 'w custom of window', 'timer', 'on sized', 'w custom of window', 'timer', 'inline window custom', 'run sized'],
    races: [],
  },
  { page: 'message-own-and-sandboxed.html', due: ['fire iframe message', 'run heard', 'timer', 'post', 'message', 'run heard'], races: [] },
];
