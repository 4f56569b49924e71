between = 1;
