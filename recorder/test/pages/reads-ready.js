var seen = window.ready;
