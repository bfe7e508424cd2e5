// A visitor's day: telephones at the plan's numbers, each with a dial of its own once its receiver is lifted, and what
// there is to dial.
import { hasText, t } from './texts.js';
import { button, buttons, element, keepList, quickButton, setText, textButton } from './elements.js';
import { dial, hang, lift, partnerOf, phoneOf, phoneState, visit } from './telephones.js';
import { keypad, Rotary } from './dials.js';
import { nowOf, showNow } from './guide.js';
import { toneOf } from './sound.js';
import { spaced } from './words.js';
import { telephoneFigure } from './objects.js';
import { Stage } from './stage.js';

const MOST_PHONES = 6;
// What the page shows: one telephone at first, after the first call the others, then the markers, the turns, and all.
export const LEVELS = ['call', 'friends', 'markers', 'turns', 'all'];

export class DayStage extends Stage {
  constructor(engine, changed, sound) {
    super('day', engine, changed, sound);
    this.plan = PLANS.example;
    this.kinds = 'XX';
    this.auto = true;
    this.speed = 8;
    this.first = 0;
    this.level = 0;
    this.hook = element('p', { class: 'hook', 'data-t': 'hook' });
    this.now = element('p', { class: 'now', role: 'status', 'aria-live': 'polite' });
    this.phones = element('div', { class: 'phones', role: 'group', 'data-t-label': 'phones' });
    this.more = buttons(textButton('phones.more', () => this.showMore(), { class: 'more' }));
    this.everything = buttons(textButton('show.everything', () => this.showEverything(), { class: 'everything quiet' }));
    this.directory = element('div', { class: 'directory' });
    const listing = element('section', { class: 'listing' }, element('h3', { 'data-t': 'directory' }), this.directory);
    this.place.append(this.hook, this.now, this.phones, this.more, listing, this.everything);
  }

  showMore() {
    this.first += MOST_PHONES;
    this.changed();
  }

  showEverything() {
    this.level = LEVELS.length - 1;
    this.changed();
  }

  get allPhones() {
    return [...new Set(this.session.office.plan.numbers.flatMap(({ lines }) => lines))];
  }

  get shownPhones() {
    const all = this.allPhones;
    if (this.first >= all.length) this.first = 0;
    return all.slice(this.first, this.first + MOST_PHONES);
  }

  get lines() { return this.shownPhones; }

  get chosen() {
    const shown = this.shownPhones;
    return shown.includes(this.line) ? this.line : shown[0];
  }

  choose(line) {
    this.line = line;
    this.changed();
  }

  async visit(change) { return this.tell(await visit(this.session, change)); }

  lift(line) {
    this.line = line;
    this.isEarly = false;
    this.sound?.click(0, 240, 0.4);
    return this.visit((visitor, office) => lift(visitor, office, line));
  }

  hang(line) {
    this.sound?.click(0, 160, 0.4);
    return this.visit((visitor, office) => hang(visitor, office, line));
  }

  // Dials at a telephone, by default the chosen one. What is dialled before the tone isn't heard.
  dial(digits, line = this.chosen) {
    if (line !== this.chosen) this.line = line;
    this.isEarly = phoneState(this.session.visitor, this.session.office, line) === 'wanting';
    if (this.isEarly) return this.changed();
    return this.visit((visitor, office) => [...digits].forEach(digit => dial(visitor, office, line, digit)));
  }

  // How many steps the markers have made.
  get stepCount() { return this.session.trail.rows.flatMap(it => it.events).filter(it => it.event === 'step').length; }

  // The name of whoever has a telephone, in the plan that the page brings.
  nameOf(line) {
    const number = this.session.office.lineName(line);
    return this.plan === PLANS.example && hasText(`person.${number}`) ? t(`person.${number}`) : '';
  }

  show() {
    const { office, visitor } = this.session, all = this.allPhones;
    this.more.hidden = all.length <= MOST_PHONES;
    keepList(this.phones, this.shownPhones, line => line, line => this.makePhone(line), (it, line) =>
      this.updatePhone(it, line));
    this.riseTo();
    this.everything.hidden = this.level === LEVELS.length - 1;
    document.body.dataset.level = LEVELS[this.level];
    const now = this.chosen === undefined ? {} : nowOf(office, visitor, this.shownPhones, this.chosen);
    if (this.isEarly && now.what === 'listen') setText(this.now, t('now.early'));
    else if (now.what) showNow(this.now, office, this.level && now.what === 'lift' ? { ...now, what: 'again', steps: this.stepCount } : now, line => this.nameOf(line));
    this.place.dataset.now = now.what ?? '';
    this.hook.hidden = this.level > 0 || now.what !== 'lift';
    for (const it of this.phones.children) it.classList.toggle('wanted', it.dataset.line === now.line && !(this.level && now.what === 'lift'));
    this.showDirectory();
    this.letSound();
  }

  // Shows more once a call was answered and has ended: after the first, the second and so on.
  riseTo() {
    const { office, visitor } = this.session, isLifted = line => phoneOf(visitor, line).lifted;
    if (this.shownPhones.some(line => phoneState(visitor, office, line) === 'talking')) this.hasTalked = true;
    if (!this.hasTalked || !office.isQuiet || this.shownPhones.some(isLifted)) return;
    this.hasTalked = false;
    this.level = Math.min(this.level + 1, LEVELS.length - 1);
  }

  letSound() {
    if (!this.sound) return;
    const { office, visitor } = this.session, shown = this.shownPhones;
    const sideOf = at => shown.length > 1 ? 1.2 * at / (shown.length - 1) - 0.6 : 0;
    const all = shown.map((line, at) => ({ key: line, tone: toneOf(phoneState(visitor, office, line)), side: sideOf(at) }));
    this.sound.let(all.filter(it => it.tone));
  }

  makePhone(line) {
    const pulse = () => this.sound?.click(0, 500, 0.12), dialled = digit => this.dial(digit, line);
    const quick = (key, act, more) => quickButton(element('span', { 'data-t': key }, t(key)), act, more);
    const it = element('article', { class: 'phone', 'data-line': line, onclick: () => this.picked(line) },
      telephoneFigure(), button(element('strong', {}), () => this.choose(line), { class: 'choose' }),
      element('p', { class: 'state' }),
      buttons(quick('phone.lift', () => this.lift(line), { class: 'lift main' }),
        quick('phone.answer', () => this.lift(line), { class: 'answer main' }),
        quick('phone.hang', () => this.hang(line), { class: 'hang' })));
    it.querySelector('.telephone').addEventListener('pointerdown', () => this.takeOrPut(line));
    it.rotary = new Rotary(dialled, pulse);
    it.append(element('div', { class: 'dials' }, it.rotary.place, keypad(dialled)));
    return it;
  }

  // A touch on the drawing of a telephone lifts its receiver, or puts it back.
  takeOrPut(line) {
    return phoneOf(this.session.visitor, line).lifted ? this.hang(line) : this.lift(line);
  }

  // A touch anywhere on a telephone chooses it.
  picked(line) { if (this.chosen !== line) this.choose(line); }

  updatePhone(it, line) {
    const { office, visitor } = this.session, state = phoneState(visitor, office, line), number = office.lineName(line);
    const { lifted, digits } = phoneOf(visitor, line), name = this.nameOf(line);
    Object.assign(it.dataset, { state, number });
    it.setAttribute('aria-current', line === this.chosen);
    it.classList.toggle('lifted', lifted);
    const shownDigits = ['dialling', 'calling'].includes(state) ? ` ${spaced(digits)}` : '';
    const isShort = state === 'tone' && this.level < 2;
    setText(it.querySelector('.state'), isShort ? t('phone.hum') : this.stateWords(line, state) + shownDigits);
    setText(it.querySelector('strong'), name ? `${number} ${name}` : number);
    it.querySelector('.choose').setAttribute('aria-label', t('phone.name', { number }));
    for (const what of ['lift', 'answer', 'hang']) {
      it.querySelector(`.${what}`).setAttribute('aria-label', t('phone.does', { does: t(`phone.${what}`), number }));
    }
    it.querySelector('.lift').disabled = lifted || state === 'ringing';
    it.querySelector('.answer').disabled = state !== 'ringing';
    it.querySelector('.hang').disabled = !lifted;
    const canDial = ['tone', 'dialling', 'wanting'].includes(state);
    it.querySelector('.dials').hidden = !canDial;
    for (const key of it.querySelectorAll('[data-digit]')) key.disabled = !canDial;
  }

  stateWords(line, state) {
    const { office } = this.session, path = office.pathOf(line);
    const partner = path && ['talking', 'ringback'].includes(state) ? partnerOf(office, path) : undefined;
    const other = partner ? office.lineName(partner) : '', place = path ? office.placeName(path.place) : '';
    return t(`phone.${state}`, { other, place });
  }

  // What can be dialled: each code with the numbers that it leads to. One touch dials all seven digits.
  showDirectory() {
    const { office, visitor } = this.session, { plan } = office;
    const canDial = this.chosen !== undefined && ['tone', 'dialling'].includes(phoneState(visitor, office, this.chosen));
    const wrong = { digits: '9990001', words: t('directory.vacant') };
    const entries = [...plan.codes.flatMap(code => this.entriesOf(plan, code)), wrong];
    const make = ({ digits }) => button(element('b', {}, spaced(digits)), () => this.dial(digits), { class: 'entry' });
    keepList(this.directory, entries, it => `${it.digits} ${it.words}`, make, (it, { words }) => {
      if (it.children.length < 2) it.append(element('span', {}, words));
      it.disabled = !canDial;
    });
  }

  // The numbers that a code leads to: some of this office, or one for all of another.
  entriesOf(plan, { code, groups }) {
    if (plan.groups[groups[0]].kind !== 'intra') return [{ digits: `${code}1234`, words: t('directory.outside') }];
    return plan.numbers.slice(0, MOST_PHONES).map(({ number, lines }) =>
      ({ digits: code + number, words: this.nameOf(lines[0]) || t('directory.inside') }));
  }
}
