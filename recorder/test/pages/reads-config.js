var ready = window.config;
