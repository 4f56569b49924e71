var part = document.createElement('object');
part.onload = function loaded() { partState = 1; };
part.data = 'dot.png';
document.body.appendChild(part);
