window.count = 0;
customElements.define('x-card', class Card extends HTMLElement {
  static observedAttributes = ['size'];
  attributeChangedCallback(name, before, value) { window.lastSize = value; }
  connectedCallback() { window.count = window.count + 1; window.shown = window.lastSize; }
});
