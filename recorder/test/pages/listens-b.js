document.querySelector('button').addEventListener('click', function second() {});
