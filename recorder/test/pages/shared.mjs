export let shared = 1;
globalThis.fromShared = 1;
