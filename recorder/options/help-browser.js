'use strict';
// What er_browser takes, for its manual page: its --help is that of Chromium.

const ER_BROWSER = `usage: er_browser [ARGUMENT..]
   or: ER_TRACES=FOLDER er_browser [ARGUMENT..]

Becomes Chromium with these arguments, for a test suite that drives a browser, and records
each page load of each tab into FOLDER. Then er_suite FOLDER lists their races. --help and
--version are those of Chromium.

Environment:
  ER_TRACES         folder for the recordings; without it, nothing is recorded
  ER_OPTIONS        options of er_record, with spaces between: --depth, --libraries,
                    --keep, --redact, --time
  ER_TEST           name that is stored with each load
  ER_HOLD           file of er_suite --replay-with: what a run holds back
  CHROMIUM          the browser (/usr/bin/chromium)

Examples:
  ER_TRACES=$PWD/traces CHROME_BIN=/path/to/er_browser npx karma start

Exit status:
  that of Chromium

Documentation: docs/suites.md`;

module.exports = { ER_BROWSER };
