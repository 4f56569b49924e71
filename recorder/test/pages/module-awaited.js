var script = document.createElement('script');
script.type = 'module';
script.textContent = 'window.fromModule = 1;';
document.head.appendChild(script);
