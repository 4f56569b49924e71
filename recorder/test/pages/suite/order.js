var picked = 'none', answers = 0;
setTimeout(function quick() { picked = 'quick'; answers++; }, 0);
fetch('/slow.json').then(function answered() { picked = 'answered'; answers++; });
