// Runs in a page of the tests: measures it as the browser lays it out, and tells the page around it what is wrong.
(function () {
  var wrong = [];
  var lines = ['thread', 'retry-arrow', 'abort', 'waiting', 'birth', 'rail', 'hairline', 'finish', 'memory-ended',
    'memory-begins', 'thread-dead', 'purged'];
  var slack = 1;
  function box(element) {
    var r = element.getBoundingClientRect();
    return { left: r.left + scrollX, right: r.right + scrollX, top: r.top + scrollY, bottom: r.bottom + scrollY,
      text: element.textContent };
  }
  function lineBoxes() {
    return [].slice.call(document.querySelectorAll('li')).filter(function (line) { return line.checkVisibility(); })
      .map(function (line) {
        var range = document.createRange();
        var said = line.querySelector('.said');
        range.selectNodeContents(line);
        if (said) { range.setEndBefore(said); }
        return box({ getBoundingClientRect: function () { return range.getBoundingClientRect(); },
          textContent: range.toString() });
      });
  }
  function pictureTexts() {
    return [].slice.call(document.querySelectorAll('svg.picture text')).map(box).filter(function (one) {
      return one.right > one.left;
    });
  }
  function overlap(one, other) {
    return one.left < other.right - slack && other.left < one.right - slack &&
      one.top + 3 < other.bottom - slack && other.top + 3 < one.bottom - slack;
  }
  function texts() {
    var all = pictureTexts().concat(lineBoxes()).sort(function (a, b) { return a.top - b.top; });
    all.forEach(function (one, place) {
      for (var at = place + 1; at < all.length && all[at].top < one.bottom; at++) {
        if (overlap(one, all[at])) { wrong.push('text on text: ' + one.text + ' | ' + all[at].text); }
      }
    });
    return all;
  }
  function strokes(all) {
    [].slice.call(document.querySelectorAll('svg.picture path')).forEach(function (path) {
      var kind = path.getAttribute('class').split(' ')[0];
      if (lines.indexOf(kind) < 0) { return; }
      var matrix = path.getScreenCTM();
      var clip = box(path.ownerSVGElement);
      for (var at = 0; at <= path.getTotalLength(); at += 2) {
        var point = path.getPointAtLength(at).matrixTransform(matrix);
        var x = point.x + scrollX, y = point.y + scrollY;
        if (y < clip.top || y > clip.bottom) { continue; }
        if (x < clip.left - slack || x > clip.right + slack) { wrong.push(kind + ' outside at ' + x); return; }
        for (var place = 0; place < all.length; place++) {
          var text = all[place];
          if (x > text.left + slack && x < text.right - slack && y > text.top + 2.5 && y < text.bottom - 2.5) {
            wrong.push(kind + ' through ' + text.text);
            return;
          }
        }
      }
    });
  }
  function outside(all) {
    var table = box(document.querySelector('table'));
    all.forEach(function (text) {
      if (text.left < table.left - slack || text.right > table.right + slack) { wrong.push('outside: ' + text.text); }
    });
    if (document.documentElement.scrollWidth > Math.max(innerWidth, table.right + 1)) {
      wrong.push('the page is wider than its table: ' + document.documentElement.scrollWidth);
    }
  }
  function keys() {
    var first = document.querySelector('li[tabindex="0"]');
    var all = [].slice.call(document.querySelectorAll('li[id]'));
    function press(key) {
      document.activeElement.dispatchEvent(new KeyboardEvent('keydown', { key: key, bubbles: true }));
    }
    first.focus();
    press('ArrowDown');
    if (document.activeElement !== all[1]) { wrong.push('ArrowDown does not step'); }
    var said = document.activeElement.querySelector('.said');
    if (getComputedStyle(said).clipPath !== 'none') { wrong.push('the sentence of the focused line is not shown'); }
    press('End');
    if (document.activeElement !== all[all.length - 1]) { wrong.push('End does not go to the last line'); }
    press('Home');
    if (document.activeElement !== all[0]) { wrong.push('Home does not go to the first line'); }
    all.forEach(function (line) {
      press('ArrowDown');
      shown(document.activeElement);
    });
    all.forEach(function (line) {
      press('ArrowUp');
      shown(document.activeElement);
    });
    press('e');
    if (document.querySelector('.verb-error') && !document.activeElement.querySelector('.verb-error')) {
      wrong.push('e does not find an error');
    }
  }
  function shown(line) {
    var own = line.getBoundingClientRect();
    var head = document.querySelector('thead th').getBoundingClientRect();
    if (own.bottom > line.querySelector('.said').getBoundingClientRect().top + slack ||
        (own.top < head.bottom - slack && own.bottom > head.top + slack)) {
      wrong.push('the focused line ' + line.id + ' is covered');
    }
  }
  function pointing() {
    var line = document.querySelector('li[data-c][data-r]');
    if (!line) { return; }
    line.dispatchEvent(new MouseEvent('mouseenter'));
    [document.getElementById('c' + line.dataset.c), document.getElementById('e' + line.dataset.r.split(' ')[0])]
      .forEach(function (one) {
        if (one && !one.classList.contains('referred')) { wrong.push('pointing at ' + line.id + ' does not mark ' + one.id); }
      });
  }
  function folds() {
    var all = [].slice.call(document.querySelectorAll('details.fold'));
    all.forEach(function (one) {
      one.open = true;
      if (!one.querySelector('.inside li').checkVisibility()) { wrong.push('a fold does not open'); }
    });
    if (all.length) { texts(); }
    all.forEach(function (one) { one.open = false; });
  }
  window.onload = function () {
    var all = texts();
    strokes(all);
    outside(all);
    keys();
    pointing();
    folds();
    parent.postMessage({ name: location.hash.slice(1), texts: all.length, wrong: wrong.slice(0, 20) }, '*');
  };
})();
