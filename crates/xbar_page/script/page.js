// The script of a page that `crossbar5 page` writes. It shows one turn, by its section and by the paths that stand
// after it, as the address, the controls and the keys say, or plays all turns again and again.
//
// bin/page_script packs it into the page, which is well-formed XML: outside of comments it has neither a less-than sign
// nor an ampersand.

(() => {
  const byId = id => document.getElementById(id);
  const all = query => [...document.querySelectorAll(query)];

  // The sections in order: at index 0 the empty office, at N + 1 the office after turn N. Each has a link in the list.
  const sections = all('section');
  const links = all('#turns a');
  const last = sections.length - 1;
  const indexes = new Map(sections.map((section, index) => ['#' + section.id, index]));
  // Each path that any turn sets up, with that turn and the turn that takes it out, if one does.
  const paths = all('[data-from]').map(group => ({
    group,
    from: +group.dataset.from,
    until: +(group.dataset.until || Infinity),
  }));

  // The names beside the frames stand in rows: those of lines from x = 204 to the left, those of trunks from 1260 to
  // the right. The widths, of a name and of all the room in a row, are in units of the picture; bold names are wider.
  const LINES = { row: 'line ', start: 204, direction: -1, width: 46, room: 174 };
  const TRUNKS = { row: 'trunk ', start: 1260, direction: 1, width: 114, room: 304 };
  const BOLD = 1.3;
  // From this width on the style sheet has two columns, with room for the list.
  const TWO_COLUMNS = 1100;

  const slider = byId('at'), told = byId('told'), status = byId('status'), count = byId('count');
  const play = byId('play'), speed = byId('speed'), list = byId('list'), turns = byId('turns');

  let now = 0; // the index of the section that is shown
  let standing = []; // the paths that are shown
  let timer = 0; // of the turns that play; 0 if none do

  const stands = (path, turn) => turn >= path.from ? path.until > turn : false;

  // Shows the paths that stand after a turn, first those that it set up, in bold.
  function showPaths(turn) {
    const isNew = path => path.from === turn, taken = new Map();
    for (const path of standing) path.group.classList.remove('stands', 'new');
    standing = paths.filter(path => stands(path, turn)).sort((one, other) => isNew(other) - isNew(one));
    for (const path of standing) {
      path.group.classList.add('stands');
      if (isNew(path)) path.group.classList.add('new');
      for (const name of path.group.querySelectorAll('text')) putName(name, isNew(path), taken);
    }
    count.textContent = 'paths: ' + standing.length + ', crosspoints closed: ' + 4 * standing.length;
  }

  // Puts a name behind those that are in its row already, or hides it if there is no room. `taken` says how much of
  // each row is taken.
  function putName(name, isBold, taken) {
    const side = name.classList.contains('line') ? LINES : TRUNKS;
    const row = side.row + name.getAttribute('y');
    const from = taken.get(row) || 0, to = from + side.width * (isBold ? BOLD : 1);
    taken.set(row, to);
    name.setAttribute('x', side.start + side.direction * from);
    name.style.display = to > side.room ? 'none' : '';
  }

  // Marks a link of the list as the one that is shown and, if the list is open, scrolls the list to it.
  function markLink(index) {
    links[now].removeAttribute('aria-current');
    links[index].setAttribute('aria-current', 'true');
    if (list.open) turns.scrollTop = links[index].parentNode.offsetTop - turns.offsetTop - 60;
  }

  // Shows a section and its paths. Its heading becomes the status, which screen readers read out, but not while turns
  // play.
  function show(index) {
    const turn = index - 1, heading = sections[index].querySelector('h2').textContent;
    showPaths(turn);
    sections[now].classList.remove('now');
    sections[index].classList.add('now');
    markLink(index);
    slider.value = index;
    slider.setAttribute('aria-valuetext', heading);
    told.textContent = index ? 'turn ' + turn + ', last ' + (last - 1) : 'start';
    if (!timer) status.textContent = heading;
    now = index;
  }

  // Stops the turns that play and shows a section, the nearest one if there is none of this index. The address comes
  // last: some browsers refuse one that changes too often, as while a key is held down.
  function go(index) {
    const to = Math.max(0, Math.min(last, index));
    stop();
    show(to);
    history.replaceState(null, '', '#' + sections[to].id);
  }

  const step = () => show(now === last ? 0 : now + 1);

  function start() {
    clearInterval(timer);
    timer = setInterval(step, 1000 * speed.value);
    play.textContent = 'stop';
    play.setAttribute('aria-pressed', 'true');
  }

  function stop() {
    clearInterval(timer);
    timer = 0;
    play.textContent = 'play';
    play.setAttribute('aria-pressed', 'false');
  }

  function playOrStop() {
    if (timer) {
      go(now);
    } else {
      start();
      history.replaceState(null, '', '#play');
    }
  }

  // Does what the address says.
  function follow() {
    if (location.hash === '#play') {
      show(0);
      start();
    } else {
      stop();
      show(indexes.get(location.hash) || 0);
    }
  }

  const keys = {
    ArrowLeft: () => now - 1,
    ArrowRight: () => now + 1,
    Home: () => 0,
    End: () => last,
  };

  // The slider and the list of speeds have these keys for themselves.
  function press(event) {
    const isWithOther = event.altKey || event.ctrlKey || event.metaKey || event.shiftKey;
    if (!keys[event.key] || isWithOther || event.target === slider || event.target === speed) return;
    event.preventDefault();
    go(keys[event.key]());
  }

  byId('first').onclick = () => go(0);
  byId('before').onclick = () => go(now - 1);
  byId('after').onclick = () => go(now + 1);
  byId('final').onclick = () => go(last);
  play.onclick = playOrStop;
  speed.onchange = () => { if (timer) start(); };
  slider.oninput = () => go(+slider.value);
  addEventListener('keydown', press);
  addEventListener('hashchange', follow);

  list.open = innerWidth >= TWO_COLUMNS;
  slider.max = last;
  byId('controls').hidden = false;
  follow();
})();
