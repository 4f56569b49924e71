globalThis.seen = globalThis.flag;
