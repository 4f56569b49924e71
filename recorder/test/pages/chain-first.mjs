import './chain-second.mjs';
