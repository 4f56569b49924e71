'use strict';
// The files of well-known libraries. jQuery, React, Angular, lodash, .. by their file names: the default of `--libraries`.

const NAMES = [
  'jquery', 'react', 'vue', 'angular', 'bootstrap', 'popper', 'underscore', 'lodash', 'backbone', 'prototype', 'effects', 'controls', 'scriptaculous',
  'mootools', 'dojo', 'd3', 'moment', 'require', 'modernizr', 'zepto', 'handlebars', 'mustache', 'core-js', 'polyfills?', 'rxjs', 'redux', 'preact', 'htmx',
  'alpine', 'highlight', 'prism', 'mathjax', 'leaflet', 'three', 'chart', 'codemirror', 'ckeditor', 'tinymce', 'lunr', 'swagger-ui', 'vendors?',
];

/** Libraries by the names of their files, as `jquery-ui.min.js` and `react-dom.production.min.js`. */
const LIBRARIES = new RegExp(`^(${NAMES.join('|')})([-._][^/]*)?\\.m?js$`, 'i');

module.exports = { LIBRARIES };
