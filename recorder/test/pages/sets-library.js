var library = 1;
