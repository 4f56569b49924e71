export const own = 1; globalThis.fromShared = 1;
