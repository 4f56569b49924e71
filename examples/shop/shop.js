// The cart that the server has kept. It comes some time later.
fetch('cart.json')
  .then(function (response) { return response.json(); })
  .then(function gotCart(kept) {
    cart = kept.items;
    show('count', cart);
  });

document.getElementById('add').addEventListener('click', function onAdd() {
  cart = cart + 1;
  show('count', cart);
});

// A hint for who has not typed yet.
setTimeout(function hint() {
  document.getElementById('search').value = 'books';
}, 400);
