import { shared } from './shared.mjs';
window.fromSecond = shared + window.fromShared;
