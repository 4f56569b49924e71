var orders = 0;
function show() { document.getElementById('orders').textContent = orders; }
fetch('/orders.json').then(function (answer) { return answer.json(); }).then(function got(kept) {
  orders = kept.orders;
  show();
});
document.getElementById('more').addEventListener('click', function more() {
  orders = orders + 1;
  show();
});
document.getElementById('help').addEventListener('click', function help() {
  window.open('/help', 'help');
});
document.getElementById('tab').addEventListener('click', function step() {
  history.pushState({}, '', '#tab');
});
