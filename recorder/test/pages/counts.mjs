export let total = 0;
export let last = '';
export const fixed = 1;
export function add(count) { total += count; last = 'a'; }
