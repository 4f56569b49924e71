export const store = { total: 0 };
export let last = '';
let scratch = 0;
const fixed = 1;
export function note(name) { scratch = fixed; last = name; return scratch; }
export const tell = () => { scratch = 2; return last + scratch + fixed; };
