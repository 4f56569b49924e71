seen = window.allowed;
