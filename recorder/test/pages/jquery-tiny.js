function later(callback, delay) { setTimeout(function wrapped() { callback(); }, delay); }
function on(target, type, handler) { target.addEventListener(type, handler); }
function ask(address, done) {
  var request = new XMLHttpRequest();
  request.onload = done;
  request.open('GET', address);
  request.send();
}
