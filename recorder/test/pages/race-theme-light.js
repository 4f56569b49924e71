var theme = 'light'; document.getElementById('out').textContent = theme;
