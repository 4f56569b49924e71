window.lazy = 1;
