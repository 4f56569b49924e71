importScripts('worker-part.js'); fetch('data.json').then(r => r.text()).then(t => postMessage(t + part));
