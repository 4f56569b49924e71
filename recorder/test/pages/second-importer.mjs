import './reads-flag.mjs';
