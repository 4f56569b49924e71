customElements.define('x-first', class First extends HTMLElement { connectedCallback() { window.latest = 'first'; } });
