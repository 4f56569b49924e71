var ready = 1;
