window.lazyToo = 1;
