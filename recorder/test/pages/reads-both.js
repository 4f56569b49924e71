seen = [window.first, window.second];
