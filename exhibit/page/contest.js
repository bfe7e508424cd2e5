// Try to break it: two lines that want the same register, and the visitor says which marker makes the next step.
// Beside the office stands one whose markers have no connectors and make their steps in the same order.
import { t } from './texts.js';
import { buttons, element, quickButton, setText, textButton } from './elements.js';
import { markerColour } from './layout.js';
import { recordsText } from './session.js';
import { KINDS, lineText, Office } from './office.js';
import { NaiveOffice } from './naive.js';
import { lift, phoneOf, phoneState, visit } from './telephones.js';
import { judge } from './turns.js';
import { Stage } from './stage.js';

export class BreakStage extends Stage {
  constructor(engine, changed, sound) {
    super('break', engine, changed, sound);
    this.plan = PLANS.example;
    this.kinds = 'XX';
    this.wanted = ['3041', '3052'];
    const phones = this.wanted.map(line => this.makePhone(line));
    this.phones = element('div', { class: 'phones', role: 'group', 'data-t-label': 'phones' }, ...phones);
    this.verdict = element('output', { id: 'naive-verdict' });
    this.told = element('p', { class: 'told', role: 'status' });
    this.duel = this.makeDuel();
    this.place.append(this.phones,
      buttons(textButton('break.random', () => this.random(), { id: 'random' })),
      element('section', { class: 'naive' }, element('h3', { 'data-t': 'naive.mark' }), this.told,
        buttons(textButton('break.judge', () => this.judge(), { id: 'audit-both' })),
        this.verdict));
  }

  makePhone(line) {
    return element('article', { class: 'phone', 'data-line': line },
      element('strong', {}), element('p', { class: 'state' }),
      buttons(textButton('phone.lift', () => this.lift(line), { class: 'lift' })));
  }

  // The two markers at the two edges, each with a key, and between them the goal and how many steps were made.
  makeDuel() {
    const press = (marker, key) => quickButton(element('b', {}, key), () => this.step(marker),
      { class: 'duellist', 'data-marker': marker, style: `--own:${markerColour(marker)}` });
    this.presses = [press(0, 'A'), press(1, 'L')];
    for (const it of this.presses) it.append(element('span', {}));
    this.goal = element('p', { class: 'goal' });
    this.hint = element('p', { class: 'hint', role: 'status' });
    this.begins = textButton('break.both', () => this.lift(...this.wanted), { id: 'both', class: 'main' });
    this.renews = textButton('duel.again', () => this.again(), { class: 'main again' });
    const middle = element('div', { class: 'between' }, this.goal, this.hint, this.begins, this.renews);
    return element('div', { class: 'duel' }, this.presses[0], middle, this.presses[1]);
  }

  // The keys of the two markers.
  typed(key) {
    const marker = { a: 0, l: 1 }[key.toLowerCase()];
    if (marker !== undefined && this.session.office.markers[marker].job) this.step(marker);
  }

  showDuel(office) {
    const made = this.session.rows.filter(row => row.steps !== undefined);
    const count = made.reduce((sum, row) => sum + row.steps, 0);
    this.presses.forEach((it, marker) => {
      setText(it.querySelector('span'), t('duel.step', { marker }));
      it.setAttribute('aria-label', t('duel.name', { marker, key: 'AL'[marker] }));
      it.disabled = !office.markers[marker].job;
    });
    const { shared, records } = this.naive, isOver = records.length > 1 && office.isQuiet;
    setText(this.goal, shared.length ? t('duel.won', { count }) : isOver ? t('duel.lost') : t('duel.goal', { count }));
    setText(this.hint, !shared.length && isAlternating(made) ? t('duel.hint') : '');
    this.begins.hidden = this.session.rows.length > 0;
    this.renews.hidden = !shared.length && !isOver;
  }

  // What is stamped on the two pictures.
  get stamps() {
    const { shared, records } = this.naive, { office } = this.session;
    const isOver = office.records.length > 1 && office.isQuiet;
    return { real: isOver ? t('stamp.right') : '', naive: shared.length ? t('stamp.wrong') : records.length > 1 ? t('stamp.lucky') : '' };
  }

  get lines() { return this.wanted; }

  async lift(...lines) {
    const liftAll = (visitor, office) => lines.forEach(line => lift(visitor, office, line));
    return this.tell(await visit(this.session, liftAll));
  }

  // A step of one of the markers that have a job, whichever comes.
  async random() {
    const working = this.session.office.markers.filter(it => it.job);
    if (working.length) await this.step(working[Math.floor(Math.random() * working.length)].marker);
  }

  async judge() {
    await super.judge();
    await judge(this.session, recordsText(this.naive.records), this.verdict);
  }

  show() {
    const { office, visitor, rows } = this.session;
    this.naive = NaiveOffice.after(office.plan, rows);
    for (const it of this.phones.children) this.updatePhone(it, office, visitor);
    this.begins.disabled = this.wanted.every(line => phoneOf(visitor, line).lifted);
    this.place.querySelector('#random').disabled = office.isQuiet;
    setText(this.told, this.naiveWords(office));
    this.showDuel(office);
    const count = this.naive.shared.length;
    if (count > (this.crashes ?? 0)) this.sound?.crash();
    this.crashes = count;
    if (this.judged !== rows.length) this.verdict.replaceChildren();
    this.judged = rows.length;
  }

  updatePhone(it, office, visitor) {
    const { line } = it.dataset, state = phoneState(visitor, office, line), path = office.pathOf(line);
    it.dataset.state = state;
    it.dataset.number = office.lineName(line);
    setText(it.querySelector('strong'), office.lineName(line));
    setText(it.querySelector('.state'), t(`phone.${state}`, { place: path ? office.placeName(path.place) : '' }));
    it.querySelector('.lift').disabled = phoneOf(visitor, line).lifted;
    it.classList.toggle('lifted', phoneOf(visitor, line).lifted);
  }

  naiveWords(office) {
    const { shared, records } = this.naive;
    if (shared.length) {
      const links = shared.map(it => it.link).join(', ');
      const lines = shared[0].lines.map(line => office.lineName(line)).join(', ');
      return `${t('naive.shared', { links, lines })} ${this.wrongWords(office)}`;
    }
    return t(records.length > 1 ? 'naive.lucky' : records.length ? 'naive.one' : 'naive.none');
  }
  // The lines that its switches show and that nobody lifted: what is left where two values are closed in one field.
  wrongWords(office) {
    const closed = new Office(this.naive.look, true).closed[KINDS.lineSwitch];
    const shown = closed.map(it => lineText(it.frame, it.number, it.value - 1));
    const wrong = shown.filter(line => !this.wanted.includes(line)).map(line => office.lineName(line));
    return wrong.length ? t('naive.wrong', { lines: wrong.join(', ') }) : '';
  }
}

// How many steps in turn show a visitor that they lead nowhere.
const MOST_IN_TURN = 6;

// Whether the last steps were made by the two markers in turn, one step each.
export function isAlternating(made) {
  const last = made.slice(-MOST_IN_TURN);
  return last.length === MOST_IN_TURN && last.every((row, at) => row.steps === 1 && (!at || row.marker !== last[at - 1].marker));
}
