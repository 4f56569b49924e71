plugin = function () { return 'a plugin'; };
