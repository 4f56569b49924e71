first = 1;
document.getElementById('go').disabled = false;
