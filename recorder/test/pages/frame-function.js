given = 1;
function ofFrame() { return given; }
