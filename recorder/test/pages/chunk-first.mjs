import { own } from './chunk.mjs'; globalThis.seenFirst = own + fromShared; globalThis.last = 1;
