read = window.after;
