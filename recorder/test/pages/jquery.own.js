var library = (function () {
  var state = { calls: 0, last: null };
  return { count: function (thing) { state.calls = state.calls + 1; state.last = thing; thing.n = thing.n + 1; return state.calls; } };
})();
