var text = document.getElementById('text');
