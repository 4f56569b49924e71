window.other = 1;
