show('offer', 'Two for the price of one');
