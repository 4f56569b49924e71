other = 1;
