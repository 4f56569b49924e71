var part = 1;
