function counter() {
  let n = 0;
  return { bump() { n = n * 2 + 1; return n; } };
}
class Thing { constructor() { this.state = 'new'; } }
const api = counter();
api.bump();
const thing = new Thing();
thing.state = 'ready';
export { api, thing };
