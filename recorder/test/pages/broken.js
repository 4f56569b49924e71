this is no JavaScript;
