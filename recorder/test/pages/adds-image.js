var added = new Image();
added.onload = function shown() { window.pictures = 1; };
added.src = 'dot.png?2';
