// Steps by keys, marks what the pointed line refers to, and finds lines. Without it the page still shows all.
(function () {
  var lines = [].slice.call(document.querySelectorAll('li[id]'));
  var marked = [];
  var search = document.getElementById('find');
  function mark(line) {
    marked.forEach(function (one) { one.classList.remove('referred'); });
    marked = (line.dataset.r || '').split(' ').map(function (index) { return document.getElementById('e' + index); })
      .concat(document.getElementById('c' + line.dataset.c)).filter(Boolean);
    marked.forEach(function (one) { one.classList.add('referred'); });
  }
  function go(from, to) {
    if (!to || to === from) { return false; }
    if (from) { from.tabIndex = -1; }
    to.tabIndex = 0;
    to.focus();
    return true;
  }
  function next(from, step, fits) {
    for (var at = from + step; at >= 0 && at < lines.length; at += step) {
      if (lines[at].offsetParent && fits(lines[at])) { return lines[at]; }
    }
    return null;
  }
  function any() { return true; }
  function isError(line) { return line.querySelector('.verb-error'); }
  function has(word) {
    return function (line) { return line.firstChild && line.textContent.toLowerCase().indexOf(word) >= 0; };
  }
  function key(line, event) {
    var at = lines.indexOf(line);
    if (event.ctrlKey || event.altKey || event.metaKey) { return; }
    var word = search && search.value.toLowerCase();
    var goal = { ArrowDown: [1, any], ArrowUp: [-1, any], e: [1, isError], E: [-1, isError],
      n: [1, has(word || '')], N: [-1, has(word || '')] }[event.key];
    if (event.key === 'Home' || event.key === 'End') {
      goal = null;
      if (go(line, event.key === 'Home' ? lines[0] : lines[lines.length - 1])) { event.preventDefault(); }
    } else if (event.key === 'Enter') {
      var link = line.querySelector('a');
      if (link) { link.click(); event.preventDefault(); }
    } else if (event.key === '/') {
      if (search) { search.focus(); event.preventDefault(); }
    }
    if (goal && go(line, next(at, goal[0], goal[1]))) { event.preventDefault(); }
  }
  lines.forEach(function (line) {
    line.onmouseenter = line.onfocus = function () { mark(line); };
    line.onkeydown = function (event) { key(line, event); };
  });
  if (search) {
    search.parentNode.hidden = false;
    search.onkeydown = function (event) {
      if (event.key !== 'Enter' && event.key !== 'Escape') { return; }
      event.preventDefault();
      var now = lines.filter(function (line) { return line.tabIndex === 0; })[0];
      var fits = has(search.value.toLowerCase());
      go(now, event.key === 'Escape' ? now : next(lines.indexOf(now), event.shiftKey ? -1 : 1, fits) || next(-1, 1, fits));
    };
  }
})();
