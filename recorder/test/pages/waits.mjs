import './other.mjs';
export let value = 0;
performance.mark('the module waits');
await ready;
value = 1;
window.inModule = settled;
