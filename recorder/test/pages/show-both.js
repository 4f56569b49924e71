first = 1;
document.documentElement.className = 'connected';
