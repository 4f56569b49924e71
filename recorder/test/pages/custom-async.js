var defined = 1;
var made;
customElements.define('x-box', class Box extends HTMLElement {
  connectedCallback() { made = defined; }
});
