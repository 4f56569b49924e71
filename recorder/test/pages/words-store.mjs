export function makeStore() {
  const state = { items: [] };
  let count = 0;
  const add = (item) => { state.items = [...state.items, item]; count = state.items.length; };
  return { add, size: () => count + state.items.length };
}
