document.getElementById('host').attachShadow({ mode: 'open' }).innerHTML = '<slot></slot>';
document.getElementById('host').shadowRoot.firstChild.addEventListener('slotchange', function slotted() { items = document.getElementById('one'); });
