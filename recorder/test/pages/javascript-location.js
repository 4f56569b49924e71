function added() {}
added();
