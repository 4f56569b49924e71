import './chain-third.mjs';
