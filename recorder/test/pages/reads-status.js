seen = [status, closed, document.readyState, name];
