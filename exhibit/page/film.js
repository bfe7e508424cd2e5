// Film: rows that play by themselves, step by step, with a sentence for each stage. The page brings some; a
// lesson's own are added by dropping a file.
import { t } from './texts.js';
import { button, buttons, element, isThere, keepList, setText, textButton } from './elements.js';
import { rowsOf, steps } from './session.js';
import { actOf, endWords, jobWords, objectWords } from './words.js';
import { Stage } from './stage.js';

const MOST_PLAYED = 1000;

export class FilmStage extends Stage {
  constructor(engine, changed, sound) {
    super('film', engine, changed, sound);
    this.films = FILMS.map(it => ({ ...it, rows: rowsOf(it.rows) }));
    this.film = this.films[0];
    const choose = () => this.play(this.films[this.choice.selectedIndex]);
    this.choice = element('select', { id: 'film', 'data-t-label': 'film.choice', onchange: choose });
    this.progress = element('progress', { 'data-t-label': 'film.progress' });
    this.sentence = element('p', { class: 'sentence', role: 'status', 'aria-live': 'polite' });
    this.place.append(this.choice,
      buttons(button(element('span', {}), () => this.toggle(), { id: 'play', class: 'main' }),
        textButton('film.skip', () => this.skip(), { id: 'skip' }), this.progress),
      this.sentence);
  }

  get plan() { return this.film.plan; }
  set plan(plan) {}
  get kinds() { return this.film.kinds; }
  set kinds(kinds) {}

  // How far the film has played: the rows that are done, and the steps of the next one.
  visitor() { return { rows: 0, steps: 0 }; }

  get isPlaying() { return true; }
  get isOver() { return this.session.visitor.rows >= this.film.rows.length; }

  async play(film) {
    this.film = film;
    this.auto = true;
    await this.begin(film.plan, film.kinds);
  }

  async toggle() {
    if (this.isOver) return this.play(this.film);
    this.auto = !this.auto;
    this.changed();
  }

  async one() { return this.tell(await this.session.inTurn(() => this.next())); }

  async autoStep() {
    const { film } = this;
    await this.one();
    // Another film may have been chosen meanwhile, which hasn't begun yet.
    if (film === this.film && this.isOver) { this.auto = false; this.changed(); }
  }

  // The next step or assignment. Steps that a row has left for an idle marker change nothing.
  async next() {
    let { rows, steps: done } = this.session.visitor;
    for (;; rows++, done = 0) {
      const row = this.film.rows[rows];
      if (!row) return this.session.addNow([], { rows, steps: 0 });
      if (row.steps === undefined) return this.session.addNow([row], { rows: rows + 1, steps: 0 });
      const isIdle = !this.session.office.markers[row.marker]?.job;
      if (done < row.steps && !isIdle) return this.session.addNow([steps(row.marker, 1)], { rows, steps: done + 1 });
    }
  }

  // To the end of the row that is played.
  async skip() {
    const { rows, steps: done } = this.session.visitor, row = this.film.rows[rows];
    if (!row) return;
    const left = row.steps === undefined ? row : steps(row.marker, Math.max(row.steps - done, 1));
    this.tell(await this.session.inTurn(() => this.session.addNow([left], { rows: rows + 1, steps: 0 })));
  }

  // Takes a film that a visitor brought, and shows it from its beginning; one of many rows at its end.
  async bring(name, plan, kinds, rows) {
    this.film = { name, plan, kinds, rows, isBrought: true };
    this.films = [...this.films.filter(it => it.name !== name), this.film];
    if (rows.length <= MOST_PLAYED) return this.play(this.film);
    this.auto = false;
    this.tell(await this.session.open(plan, kinds, [...rows], { rows: rows.length, steps: 0 }));
  }

  show() {
    const { office, visitor } = this.session;
    const nameOf = it => it.isBrought ? it.name : t(`film.${it.name}`);
    keepList(this.choice, this.films, nameOf, it => element('option', {}, nameOf(it)), () => {});
    this.choice.selectedIndex = this.films.indexOf(this.film);
    const what = this.isOver ? 'repeat' : this.auto ? 'pause' : 'play';
    setText(this.place.querySelector('#play span'), t(`film.${what}`));
    this.place.querySelector('#skip').disabled = this.isOver;
    this.progress.max = Math.max(this.film.rows.length, 1);
    this.progress.value = visitor.rows;
    setText(this.sentence, this.stageWords(office));
  }

  // The sentence for what has just happened, or for the film's beginning.
  stageWords(office) {
    const event = office.events[office.events.length - 1];
    if (!event) return this.film.isBrought ? t('film.brought') : t(`film.${this.film.name}.says`);
    const { marker, turn, record, holder, preferred } = event, object = event.object ? objectWords(event.object, office) : '';
    if (event.event === 'assignment') return t('stage.assigned', { marker, job: jobWords(event.job, office) });
    if (record) return t('stage.turn', { marker, turn, end: endWords(record, office) });
    if (isThere(holder)) return t('stage.held', { marker, other: holder, connector: object });
    if (isThere(preferred)) return t('stage.preferred', { marker, other: preferred, connector: object });
    return t(`stage.${isThere(event.ended) ? 'ended' : actOf(event)}`, { marker, object });
  }
}
