document.getElementById('offer').textContent = 'Two for one';
