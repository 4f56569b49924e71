seen = [window.states];
