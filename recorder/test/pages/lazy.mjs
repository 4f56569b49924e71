export const lazy = 1;
globalThis.lazyRan = 1;
