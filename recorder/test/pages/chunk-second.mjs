import './chunk.mjs'; globalThis.seenSecond = fromShared; globalThis.last = 2;
