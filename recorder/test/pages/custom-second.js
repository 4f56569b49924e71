customElements.define('x-second', class Second extends HTMLElement {
  static observedAttributes = ['size'];
  attributeChangedCallback() { window.latest = 'second'; }
});
