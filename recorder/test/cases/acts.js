'use strict';
// Pages of pages/: acts of a user at what is disabled or hidden first.

/** @type {import('../types').PageCase[]} */
exports.cases = [
  // ---- what follows an act in its task
  {
    page: 'command.html',
    words: ['--do', 'click:button'],
    due: ['inline button#opens click', 'w chosen', 'inline dialog#dialog command', 'r chosen', 'w opened', 'inline dialog#dialog beforetoggle', 'r opened'],
    races: ['click of button#opens'],
  },
  {
    page: 'cut.html',
    words: ['--do', 'click:#field', '--do', 'key:Control+a', '--do', 'key:Control+x'],
    due: ['fire input#field keydown', 'inline input#field cut', 'w taken', 'inline input#field input', 'r taken'],
    races: ['cut of input#field'],
  },

  // ---- acts at a control that is disabled first
  ...[3, 2, 1].map((version) => ({
    page: 'control-enabled.html',
    version,
    words: ['--do', 'click:#field'],
    due: ['timer', 'w settings', 'on clicked', 'on the code that enabled it', 'fire input#field enabling', 'run the code that enabled it', 'new input#field plain',
      'close', 'fire input#field mousedown', 'fire input#field mouseup', 'inline input#field click', 'run clicked', 'r settings'],
    races: [],
  })),
  {
    page: 'control-enabled.html',
    words: ['--do', 'click:#field', '--depth', 'globals'],
    due: ['timer', 'w settings', 'on the code that enabled it', 'run the code that enabled it', 'new input#field plain', 'fire input#field mousedown', 'run clicked'],
    races: [],
  },
  {
    page: 'control-open.html',
    words: ['--do', 'click:#field'],
    due: ['timer', 'w settings', 'on clicked', 'fire input#field mousedown', 'inline input#field click', 'run clicked', 'r settings'],
    never: ['fire input#field enabling'],
    races: ['click of input#field'],
  },
  {
    page: 'control-of-head.html',
    words: ['--do', 'type:#field:a'],
    due: ['timer', 'w settings', 'on the code that enabled it', 'fire textarea#field enabling', 'new textarea#field plain', 'close', 'fire textarea#field mousedown',
      'fire textarea#field keydown', 'run keydown', 'r settings', 'r #field'],
    races: ['#field'],
  },
  {
    page: 'control-again.html',
    words: ['--do', 'click:#button'],
    due: ['timer', 'w first', 'on the code that enabled it', 'timer', 'timer', 'w second', 'new button#button plain', 'inline button#button click', 'r first', 'r second'],
    races: ['second'],
  },
  {
    page: 'control-made.html',
    words: ['--do', 'click:#kept', '--do', 'click:#open'],
    due: ['timer', 'w second', 'w first', 'on the code that enabled it', 'fire button#kept enabling', 'run clicked', 'r first', 'fire button#open mousedown',
      'run clicked', 'r second'],
    never: ['fire button#open enabling'],
    races: ['second'],
  },
  {
    page: 'control-in-fieldset.html',
    words: ['--do', 'click:#title', '--do', 'click:#inside', '--do', 'click:#own'],
    due: ['timer', 'w first', 'timer', 'w third', 'run click', 'r first', 'fire button#inside enabling', 'run click', 'r second', 'fire button#own enabling',
      'run click', 'r third'],
    never: ['fire button#title enabling'],
    races: ['first'],
  },
  {
    page: 'control-by-label.html',
    words: ['--do', 'click:#label', '--do', 'click:#other'],
    due: ['timer', 'w focus of input#field', 'timer', 'w click of input#field', 'inline label#label click', 'inline the code that enabled it behind', 'back',
      'inline input#field focus', 'run focused', 'back', 'inline input#field click', 'run clicked', 'fire button#other mousedown', 'run pressed', 'close',
      'inline the code that enabled it behind', 'back', 'inline input#field blur', 'run left'],
    races: ['click of input#field', 'mousedown of button#other'],
  },

  // ---- acts at what is hidden first
  ...[3, 2, 1].map((version) => ({
    page: 'show-class.html',
    version,
    words: ['--do', 'click:#user'],
    due: ['timer', 'w settings', 'on clicked', 'on the code that showed it', 'fire input#user showing', 'run the code that showed it', 'new input#user plain',
      'close', 'fire input#user mousedown', 'fire input#user mouseup', 'inline input#user click', 'run clicked', 'r settings'],
    races: [],
  })),
  { page: 'show-class.html', words: ['--do', 'click:#user', '--depth', 'globals'], due: ['fire input#user showing'], races: [] },
  { page: 'show-look.html', words: ['--do', 'click:#user'], due: ['run clicked'], never: ['fire input#user showing'], races: ['click of input#user'] },
  { page: 'show-again.html', words: ['--do', 'wait:100', '--do', 'click:#go'], due: ['run clicked'], never: ['fire button#go showing'], races: ['click of button#go'] },
  // of two codes that are both needed, the later one; of what stands one in the other, both
  { page: 'show-both.html', words: ['--do', 'wait:400', '--do', 'click:#go'], due: ['w second', 'fire button#go showing', 'run clicked'], races: ['first'] },
  {
    page: 'show-inside.html',
    words: ['--do', 'wait:100', '--do', 'click:#go'],
    due: ['w first', 'w second', 'fire button#go showing', 'run the code that showed it', 'run the code that showed it', 'close', 'new button#go plain', 'run clicked'],
    races: [],
  },
  { page: 'show-inserted.html', words: ['--do', 'click:#go'], due: ['w settings', 'fire button#go showing', 'run clicked'], races: [] },
  { page: 'show-dialog.html', words: ['--do', 'click:#go'], due: ['w settings', 'fire button#go showing', 'run clicked'], races: [] },
  { page: 'show-slowly.html', words: ['--do', 'wait:800', '--do', 'click:#go'], due: ['w settings', 'fire button#go showing', 'run clicked', 'r settings'], races: [] },
  { page: 'show-disabled.html', words: ['--do', 'wait:400', '--do', 'click:#go'], due: ['w first', 'w second', 'fire button#go showing', 'run clicked'], races: [] },
  { page: 'show-in-frame.html', words: ['--do', 'wait:400', '--do', 'click:#frame'], due: ['w settings', 'fire button showing', 'run pressed', 'r settings'], races: [] },
  { page: 'show-parts.html', words: ['--do', 'wait:100', '--do', 'click:#go'], due: ['fire a#go showing', 'run pressed', 'run let_go'], races: [] },
  // keys reach what a pointer does not
  { page: 'show-overlay.html', words: ['--do', 'click:#field'], due: ['fire input#field showing', 'run acted'], races: [] },
  { page: 'show-overlay.html', words: ['--do', 'key:Tab', '--do', 'key:a'], due: ['run acted'], never: ['fire input#field showing'], races: ['keydown of input#field'] },
  {
    page: 'show-for-pointer.html',
    words: ['--do', 'click:#go', '--do', 'click:#away', '--do', 'click:#in', '--do', 'click:#still'],
    due: ['fire button#go showing', 'run pressed', 'fire button#away showing', 'run pressed', 'fire button#in showing', 'run pressed', 'fire button#still showing',
      'run pressed'],
    races: [],
  },
  {
    page: 'filled-by-parser.html',
    words: ['own', 'link', 'padded', 'tall', 'before', 'words', 'second', 'part'].flatMap((id) => ['--do', `click:#${id}`]),
    due: ['fire div#own showing', 'run click', 'r #inside', 'fire a#link showing', 'run click', 'r #in-link', 'run click', 'r #in-padded', 'run click', 'r #in-tall'],
    never: ['fire div#padded showing', 'fire div#tall showing', 'fire div#before showing', 'fire div#words showing', 'fire span#part showing'],
    races: ['#in-before', '#in-padded', '#in-part', '#in-tall', '#in-words', '#is-second'],
  },
  // what no code has shown, or what an act comes to in another way
  ...['show-by-animation.html', 'show-by-sheet.html'].map((page) => ({
    page, words: ['--do', 'wait:500', '--do', 'click:#go'], due: ['w settings', 'run clicked'], never: ['fire button#go showing'], races: ['click of button#go'],
  })),
  {
    page: 'show-by-user.html',
    words: ['--do', 'wait:500', '--do', 'click:#open', '--do', 'click:#go'],
    due: ['run toggled', 'run clicked'],
    never: ['fire button#go showing'],
    races: ['click of button#go', 'toggle of details#more'],
  },
  { page: 'show-by-label.html', words: ['--do', 'wait:100', '--do', 'click:#label'], due: ['run clicked'], never: ['fire input#box showing'], races: ['click of input#box'] },
  // ---- acts at what others cover first
  // the parser makes the cover after it, or code makes it later: a user can be faster
  ...['cover-parsed-later.html', 'cover-by-code-later.html', 'cover-partly.html', 'cover-passes.html', 'cover-not-modal.html', 'cover-modal-later.html'].map((page) => ({
    page, words: ['--do', 'wait:200', '--do', 'click:#go'], due: ['w settings', 'run clicked'], never: ['fire button#go showing'], races: ['click of button#go'],
  })),
  // covered again later: it comes after the code that uncovered it first
  { page: 'cover-again.html', words: ['--do', 'wait:200', '--do', 'click:#go'], due: ['fire button#go showing', 'run clicked'], races: ['click of button#go'] },
  // code makes it under a cover that is there, or comes with it
  ...['cover-rendered.html', 'cover-with-it.html', 'cover-out-of-view.html', 'cover-modal.html', 'cover-rendered-keys.html'].map((page) => ({
    page, words: ['--do', 'wait:200', '--do', 'click:#go'], due: ['w settings', 'fire button#go showing', 'run clicked', 'r settings'], races: [],
  })),
  { page: 'cover-modal.html', words: ['--do', 'wait:200', '--do', 'press:#go:a'], due: ['w settings', 'fire button#go showing', 'run pressed'], races: [] },
  // what is above the cover, and what is reached in another way: an access key, the keys, a label
  { page: 'cover-rendered.html', words: ['--do', 'wait:200', '--do', 'click:#moved'], due: ['run clicked'], never: ['fire button#moved showing'], races: ['click of button#moved'] },
  { page: 'cover-out-of-view.html', words: ['--do', 'wait:200', '--do', 'click:#layer'], due: ['run clicked'], never: ['fire button#layer showing'], races: ['click of button#layer'] },
  ...['key:Alt+g', 'press:#go:Enter'].map((act) => ({
    page: 'cover-rendered-keys.html', words: ['--do', 'wait:200', '--do', act], due: ['run clicked'], never: ['fire button#go showing'], races: ['click of button#go'],
  })),
  { page: 'cover-rendered-keys.html', words: ['--do', 'wait:200', '--do', 'press:#box:Space'], due: ['run clicked'], never: ['fire input#box showing'], races: ['click of input#box'] },
];
