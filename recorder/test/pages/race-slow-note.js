came = 1;
if (performance.now() - begun > 2800) document.getElementById('out').textContent = 'The network is slow';
