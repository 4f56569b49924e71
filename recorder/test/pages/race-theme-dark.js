var theme = 'dark'; document.getElementById('out').textContent = theme;
