window.show('lazy');
