var script = document.createElement('script');
script.type = 'module';
// Load does not wait for the end of what the module imports.
script.textContent = 'import "./waits-at-top.mjs"; window.fromModule = 1;';
document.head.appendChild(script);
