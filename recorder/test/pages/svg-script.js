var fromFile = isLess ? 'from a file' : '';
