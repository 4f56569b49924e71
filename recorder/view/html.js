'use strict';
// The page of the view as one text that needs nothing else. It loads no external resources: its own content policy (CSP) forbids that, and any script (XSS) of
// a recorded page.

const fs = require('node:fs');
const path = require('node:path');
const { escapeText } = require('../common/shown.js');
const { bundled } = require('../recording/bundle.js');
const { librariesInWords } = require('../trace/accesses.js');
const { escapeJson, hashSource } = require('./embedded.js');
const { entriesOf } = require('./lines.js');
const { quoted } = require('./quoted.js');

/** @typedef {import('./types').ViewModel} ViewModel */

/** @param {string[][]} pairs */
const options = (pairs) => pairs.map(([value, text]) => `<option value="${value}">${text}</option>`).join('');

const KINDS = options([['all', 'all'], ['variable', 'variables'], ['element', 'elements'], ['handler', 'handlers']]);
const ORDERS = [['looks', 'worst first'], ['size', 'largest first'], ['trace', 'as recorded']];
/** "Worst first" is the order of the list, which has what replays found; by these alone, what was not replayed comes last. */
const ORDERS_OF_REPLAYS = [ORDERS[0], ['verdict', 'by what the other order does'], ...ORDERS.slice(1)];
const MOST_LEFT_OUT = 8;

/** How many of the counts of a report the page shows; the words of the others begin in docs/report.md. */
const SHOWN_COUNTS = 1;

/** @param {ViewModel} model */
function counts({ totals, counts: others }) {
  return [...Object.entries(totals), ...others.slice(0, SHOWN_COUNTS)].map(([name, number]) => `${number} ${name}`).join(', ');
}

/**
 * What the program could not take, if there is any.
 * @param {ViewModel} model
 */
function leftOut({ leftOut: all = [] }) {
  if (!all.length) return '';
  const told = all.slice(0, MOST_LEFT_OUT).map(({ words, pairs }) => `${words} (${pairs} pairs)`).join(', ');
  const more = all.length > MOST_LEFT_OUT ? ` and ${all.length - MOST_LEFT_OUT} more` : '';
  return `<p class="left-out">Left out, since they are over the limits of the analyzer: the accesses to ${escapeText(told)}${more}.</p>\n`;
}

/**
 * That the page leaves out some races, if it does.
 * @param {ViewModel} model
 */
function notShown({ totals, listed, races, report }) {
  if (races.length === totals.races) return '';
  const all = entriesOf(totals) + (totals.known || 0);
  const ofProblems = listed.length < all ? `, in ${listed.length} of ${all} ${totals.entries === undefined ? 'problems' : 'entries'}` : '';
  return `<p class="left-out">This page shows ${races.length} of ${totals.races} races${ofProblems}, so that a browser can open it: at most 100 of a group, the worst problems first. `
    + `All are in the report, <code>${escapeText(report)}</code>, and in words in the list of <code>--json</code>.</p>\n`;
}

/**
 * If the analyzer was not built: what that means for this page, and how to get the rest.
 * @param {ViewModel} model
 */
function unproved({ isUnproved, lacksLinks, command }) {
  if (!isUnproved) return '';
  const who = lacksLinks ? 'its source, compiled without the proof, found these races. The paths between actions are missing'
    : 'a second program without proofs found these races and paths';
  return `<p class="unproved">Not proved: the analyzer was not built when this page was made, so ${who}. After <code>./er_cli --build</code>,
<code>${escapeText(command)}</code> writes this page with ${lacksLinks ? 'them' : 'proved answers'}.</p>\n`;
}

/**
 * What the recording lacks of what was to be recorded.
 * @param {ViewModel} model
 */
function notComplete({ notComplete: lines = [] }) {
  return lines.length ? `<p class="left-out">The recording is not complete, so races might be missing: ${escapeText(lines.join('; '))}.</p>\n` : '';
}

/**
 * What was left out by choice.
 * @param {ViewModel} model
 */
function ofLibraries({ ofLibraries: count }) {
  return count ? `<p class="left-out">${escapeText(librariesInWords(count))}.</p>\n` : '';
}

/**
 * The model with the command that views each trace of a replay.
 * @param {ViewModel} model
 * @returns {ViewModel}
 */
function withCommands(model) {
  if (!model.replays) return model;
  const commandOf = (/** @type {string} */ trace) => `${model.viewer} ${quoted(path.join(path.dirname(model.trace), trace))}`;
  return { ...model, replays: model.replays.map((replay) => ({ ...replay, command: commandOf(replay.trace) })) };
}

/** @type {{style: string, script: string, policy: string}|undefined} */
let parts;

/** The style and the script of the page, and the policy that allows these two alone. */
function partsOfPage() {
  if (parts) return parts;
  const style = fs.readFileSync(path.join(__dirname, 'style.css'), 'utf8');
  const script = `${bundled(path.join(__dirname, 'client', 'main.js'), [])}().start();\n`;
  const policy = `default-src 'none'; style-src ${hashSource(style)}; script-src ${hashSource(script)}; img-src data:; base-uri 'none'; form-action 'none'`;
  parts = { style, script, policy };
  return parts;
}

/**
 * The HTML of a view: its model is in it as JSON, beside its style and its script. Called by view.js.
 * @param {ViewModel} model
 */
function renderPage(model) {
  const { style, script, policy } = partsOfPage();
  return `<!doctype html>
<html lang="en">
<head>
<meta charset="utf-8">
<meta http-equiv="Content-Security-Policy" content="${policy}">
<meta name="viewport" content="width=device-width">
<title>Races of ${escapeText(model.page)}</title>
<style>${style}</style>
</head>
<body>
<h1>Races of ${escapeText(model.page)}</h1>
<p class="counts">${escapeText(counts(model))}</p>
${unproved(model)}${notComplete(model)}${notShown(model)}${leftOut(model)}${ofLibraries(model)}<form>
<label>Kind <select id="kind">${KINDS}</select></label>
<label>Text <input id="text" type="search" placeholder="a name, a file, a handler"></label>
<label>Order <select id="order">${options(model.replays?.length ? ORDERS_OF_REPLAYS : ORDERS)}</select></label>
<output id="found"></output>
</form>
<main id="groups"></main>
<script type="application/json" id="model">${escapeJson(withCommands(model))}</script>
<script>${script}</script>
</body>
</html>
`;
}

module.exports = { renderPage };
