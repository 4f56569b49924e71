customElements.define('x-card', class Card extends HTMLElement {
  static observedAttributes = ['size'];
  attributeChangedCallback(name, before, value) { window.latest = value; }
  connectedCallback() { if (!this.hasAttribute('size')) window.latest = 'none'; }
});
