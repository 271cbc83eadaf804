// Stands in a picture inside of the page of `rtm play`: tells it which card is pointed at, and hears where to scroll.
(function () {
  function tell(told) { parent.postMessage(told, '*'); }
  function around(event, what) { return event.target.closest ? event.target.closest(what) : null; }
  function card(event) {
    var line = around(event, 'li[data-c]');
    tell({ card: line ? Number(line.dataset.c) : 0 });
  }
  document.addEventListener('mouseover', card);
  document.addEventListener('focusin', card);
  document.addEventListener('click', function (event) {
    var link = around(event, 'a[href^="#c"]'), moment = around(event, 'tbody tr');
    if (link) {
      event.preventDefault();
      tell({ go: Number(link.getAttribute('href').slice(2)) });
    } else if (moment && moment.querySelector('th')) {
      tell({ at: Number(moment.querySelector('th').textContent) });
    }
  });
  addEventListener('scroll', function () { tell({ scrolled: [scrollX, scrollY] }); });
  addEventListener('message', function (event) {
    if (event.source !== parent) { return; }
    if (event.data.scroll) { scrollTo(event.data.scroll[0], event.data.scroll[1]); }
    if (event.data.card !== undefined) {
      [].slice.call(document.querySelectorAll('li[data-c]')).forEach(function (line) {
        line.classList.toggle('referred', Number(line.dataset.c) === event.data.card);
      });
    }
  });
  tell({ ready: true });
})();
