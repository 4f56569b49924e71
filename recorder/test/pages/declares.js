const declared = 1;
