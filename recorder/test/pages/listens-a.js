document.querySelector('button').addEventListener('click', function first() {});
