function onBuy() { bought = 1; }
document.getElementById('buy').addEventListener('click', onBuy);
