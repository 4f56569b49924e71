var bought = 0;
document.getElementById('buy').addEventListener('click', function onBuy() {
  bought++;
  document.getElementById('out').textContent = String(bought);
});
