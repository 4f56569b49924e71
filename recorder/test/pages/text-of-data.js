seen = document.currentScript.parentNode.textContent;
