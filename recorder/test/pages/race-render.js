function renderFound(found) {
  document.getElementById('out').textContent = found.word;
}
