given = 1;
