function through(count, run) { return count ? through(count - 1, run) : run(); }
function fill(id, text) { through(12, function () { document.getElementById(id).className = text; }); }
