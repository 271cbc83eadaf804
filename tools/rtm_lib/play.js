// The page of `rtm play`: asks its own server, marks faults, shows pictures. What it says comes from there.
(function () {
  function at(id) { return document.getElementById(id); }
  var deck = at('deck'), name = at('name'), frame = at('picture'), says = at('says'), command = at('command');
  var start = JSON.parse(at('start').textContent);
  var findings = [], pointed = 0, saved = start.deck, asked = 0, timer = 0, scrolled = [0, 0], shown = '';

  function ask(word, given) {
    var headers = { 'Content-Type': 'application/json' };
    return fetch(word, { method: 'POST', headers: headers, body: JSON.stringify(given) }).then(function (answer) {
      return answer.json().then(function (told) {
        if (!answer.ok) { throw { status: answer.status, message: told.error }; }
        return told;
      });
    });
  }
  function tell(text, wrong) {
    says.textContent = text;
    says.classList.toggle('wrong', Boolean(wrong));
  }
  function failed(trouble) { tell(trouble.message ? String(trouble.message) : 'rtm play has ended', true); }
  function given() { return { deck: deck.value, name: name.value, command: command.value }; }

  // The editor: numbers of lines, and marks under what is wrong.
  function span(text, kind) {
    var made = document.createElement('span');
    made.textContent = text;
    if (kind) { made.className = kind; }
    return made;
  }
  function wordEnd(line, from) {
    var end = line.slice(from).search(/[ ,]/);
    return end < 0 ? line.length : Math.max(from + 1, from + end);
  }
  function paint() {
    var numbers = at('numbers'), marks = at('marks'), of = {};
    findings.forEach(function (one) { of[one.card] = of[one.card] || one; });
    numbers.textContent = marks.textContent = '';
    deck.value.split('\n').forEach(function (line, place) {
      var one = of[place + 1], here = place + 1 === pointed ? ' pointed' : '';
      numbers.append(span(String(place + 1), (one ? one.kind : '') + here), '\n');
      if (one) {
        var from = Math.min(one.column - 1, line.length), end = wordEnd(line, from);
        marks.append(line.slice(0, from), span(line.slice(from, end) || ' ', one.kind), line.slice(end), '\n');
      } else {
        marks.append(here ? span(line || ' ', 'pointed') : line, '\n');
      }
    });
    follow();
  }
  function follow() {
    at('numbers').scrollTop = at('marks').scrollTop = deck.scrollTop;
    at('marks').scrollLeft = deck.scrollLeft;
  }
  function go(card, column) {
    var lines = deck.value.split('\n'), from = 0;
    for (var place = 0; place < card - 1 && place < lines.length; place++) { from += lines[place].length + 1; }
    var line = lines[card - 1] || '', begin = Math.min((column || 1) - 1, line.length);
    deck.focus();
    deck.setSelectionRange(from + begin, from + (column ? wordEnd(line, begin) : line.length));
    deck.scrollTop = Math.max(0, (card - 6) * 19);
    follow();
  }
  function list() {
    var all = at('findings');
    all.textContent = '';
    findings.forEach(function (one) {
      var button = document.createElement('button'), item = document.createElement('li');
      button.type = 'button';
      button.append(span(one.card + ':' + one.column + ' '), Object.assign(document.createElement('b'),
        { textContent: one.kind === 'fault' ? one.why : 'warning' }),
        ': ' + one.says + (one.suggestion ? '. Perhaps ' + one.suggestion + '?' : '') +
        (one.note ? ' (' + one.note + ')' : ''));
      button.onclick = function () { go(one.card, one.column); };
      item.append(button);
      all.append(item);
    });
  }
  function many(number, one) { return number + ' ' + one + (number === 1 ? '' : 's'); }
  function mark(told) {
    function kind(word) { return function (one) { one.kind = word; return one; }; }
    findings = told.faults.map(kind('fault')).concat(told.warnings.map(kind('warning')));
    at('count').textContent = many(told.faults.length, 'fault') + ', ' + many(told.warnings.length, 'warning');
    at('commands').textContent = '';
    told.tasks.forEach(function (task) {
      at('commands').append(Object.assign(document.createElement('option'), { value: 'CANCEL ' + task }));
    });
    list();
    paint();
  }

  // Asking. Only the answer to the last question counts.
  function show(told, kind) {
    at('right').className = told.picture ? '' : 'old';
    at('stale').hidden = Boolean(told.picture);
    at('back').hidden = kind === 'run';
    if (!told.picture) { return; }
    if (shown !== kind) { scrolled = [0, 0]; }
    shown = kind;
    frame.src = 'picture/' + told.picture;
  }
  function check(moment) {
    var mine = ++asked, body = given();
    if (moment !== undefined) { body.at = moment; }
    tell('runs ...');
    return ask('check', body).then(function (told) {
      if (mine !== asked) { return; }
      mark(told);
      show(told, moment === undefined ? 'run' : 'moment');
      var where = moment === undefined ? '' : 'with the command at ' + moment + ': ';
      tell(told.picture ? where + told.says : 'the deck is refused', !told.picture);
    }).catch(function (trouble) { if (mine === asked) { failed(trouble); } });
  }
  function sweep() {
    var mine = ++asked;
    tell('sweeps ...');
    ask('sweep', given()).then(function (told) {
      if (mine !== asked) { return; }
      show(told, 'sweep');
      tell(told.command + ': ' + told.says.join(' '));
    }).catch(function (trouble) { if (mine === asked) { failed(trouble); } });
  }
  function typed() {
    findings = [];
    paint();
    clearTimeout(timer);
    timer = setTimeout(function () { check(); }, 250);
  }
  function open(text, file) {
    deck.value = saved = text;
    name.value = file;
    findings = [];
    pointed = 0;
    paint();
    check();
  }
  function mayGo() { return deck.value === saved || confirm('The deck has changes that are not saved. Leave them?'); }
  function save(replace) {
    var text = deck.value;
    ask('save', { name: name.value, deck: text, replace: replace === true }).then(function (told) {
      saved = text;
      tell('saved as ' + told.saved);
    }).catch(function (trouble) {
      if (trouble.status === 409) {
        if (confirm(name.value + ' is there already, with other cards. Replace it?')) { save(true); }
      } else { failed(trouble); }
    });
  }
  function download() {
    var link = document.createElement('a');
    link.href = URL.createObjectURL(new Blob([deck.value], { type: 'text/plain' }));
    link.download = name.value || 'my.deck';
    link.click();
    URL.revokeObjectURL(link.href);
  }

  // The picture tells what is pointed at, and is told on which card the cursor stands.
  function toPicture(told) { if (frame.contentWindow) { frame.contentWindow.postMessage(told, '*'); } }
  window.addEventListener('message', function (event) {
    if (event.source !== frame.contentWindow || !event.data) { return; }
    var told = event.data;
    if (told.ready) { toPicture({ scroll: scrolled }); }
    if (told.scrolled) { scrolled = told.scrolled; }
    if (told.card !== undefined && told.card !== pointed) { pointed = told.card; paint(); }
    if (told.go) { go(told.go); }
    if (told.at !== undefined) { check(told.at); }
  });
  document.addEventListener('selectionchange', function () {
    if (document.activeElement === deck) {
      toPicture({ card: deck.value.slice(0, deck.selectionStart).split('\n').length });
    }
  });

  deck.addEventListener('input', typed);
  deck.addEventListener('scroll', follow);
  at('sweep').onclick = sweep;
  at('back').onclick = function () { check(); };
  at('save').onclick = save;
  at('download').onclick = download;
  at('example').onchange = function () {
    var wanted = at('example').value;
    at('example').value = '';
    if (!wanted || !mayGo()) { return; }
    fetch('example/' + encodeURIComponent(wanted)).then(function (answer) { return answer.json(); })
      .then(function (told) { open(told.deck, told.name); }).catch(failed);
  };
  document.addEventListener('keydown', function (event) {
    if ((event.ctrlKey || event.metaKey) && event.key === 's') { event.preventDefault(); save(); }
    if (event.key === 'F8' && findings.length) {
      var line = deck.value.slice(0, deck.selectionStart).split('\n').length;
      var next = findings.filter(function (one) { return one.card > line; })[0] || findings[0];
      event.preventDefault();
      go(next.card, next.column);
    }
  });
  window.addEventListener('beforeunload', function (event) { if (deck.value !== saved) { event.preventDefault(); } });

  start.examples.forEach(function (one) {
    at('example').append(Object.assign(document.createElement('option'),
      { value: one.name, textContent: one.name + ': ' + one.says }));
  });
  open(start.deck, start.name || 'my.deck');
})();
