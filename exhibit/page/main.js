// The page: it opens the engine, shows the mode that the visitor chooses, and lets markers work by themselves.
import { showTexts, t, texts } from './texts.js';
import { $, element, pause, setText } from './elements.js';
import { TASK } from './session.js';
import { MANY_MARKERS, Office } from './office.js';
import { Picture } from './picture.js';
import { showLegend } from './legend.js';
import { showGroups } from './groups.js';
import { eventWords, titleWords } from './words.js';
import { showMarkers } from './markers.js';
import { showCards, showTurns, stayAtEnd } from './turns.js';
import { DayStage } from './day.js';
import { BreakStage } from './contest.js';
import { chosen, RushStage } from './rush.js';
import { FilmStage } from './film.js';
import { Files } from './files.js';
import { Kiosk } from './kiosk.js';
import { phaseWords, showPhases } from './phases.js';
import { sideOf, Sound } from './sound.js';
import { bayFigure, SwitchFigure } from './objects.js';
import { touchedWords } from './tell.js';
import { readOwn } from './own.js';

const DELAYS = [2500, 1800, 1200, 800, 500, 320, 200, 110, 60, 30, 0];

class Page {
  constructor(engine) {
    this.engine = engine;
    this.sound = new Sound();
    this.stages = this.makeStages();
    this.picture = new Picture($('picture'));
    this.naive = new Picture($('naive'));
    this.files = new Files(this);
    this.closeup = new SwitchFigure();
    $('closeup').prepend(this.closeup.place);
    this.listen();
    this.showLanguages();
  }

  makeStages() {
    const changed = stage => this.refresh(stage), stage = Kind => new Kind(this.engine, changed, this.sound);
    const day = stage(DayStage);
    if (this.ownPlan && !this.refusedPlan) day.plan = this.ownPlan;
    return { day, break: stage(BreakStage), rush: stage(RushStage), film: stage(FilmStage) };
  }

  // Makes everything as it was at the beginning: the offices, the language, the sound and what is shown.
  async reset() {
    for (const dialog of document.querySelectorAll('dialog[open]')) dialog.close();
    document.activeElement?.blur();
    if (this.stage) this.stage.isOpen = false;
    this.stages = this.makeStages();
    this.sound.silence();
    this.sound.mute(this.sound.volume === 0);
    texts.use(texts.atFirst);
    this.showLanguages();
    for (const it of document.querySelectorAll('#panel, #office, #turns')) it.scrollTop = 0;
    await this.choose('day');
  }

  async start() {
    this.ownPlan = await readOwn();
    if (this.ownPlan && await this.faultOf(this.ownPlan, 'XX', '')) this.refusedPlan = true;
    this.stages = this.makeStages();
    this.showLanguages();
    await this.choose('day');
    if (this.refusedPlan) { this.stage.message = t('own.refused'); this.refresh(this.stage); }
    this.kiosk = new Kiosk(this);
    this.work();
  }

  // Shows a mode. Its office is as it was left, or begins.
  async choose(name) {
    const stage = this.stages[name];
    if (this.stage) this.stage.isOpen = false;
    this.stage = stage;
    stage.isOpen = true;
    document.body.dataset.mode = name;
    delete document.body.dataset.level;
    this.sound.silence();
    for (const tab of $('modes').children) {
      const isThis = tab.dataset.mode === name;
      tab.setAttribute('aria-selected', isThis);
      tab.tabIndex = isThis ? 0 : -1;
    }
    $('panel').setAttribute('aria-labelledby', `tab-${name}`);
    $('stage').replaceChildren(stage.place);
    $('duel').replaceChildren(...stage.duel ? [stage.duel] : []);
    $('other').hidden = name !== 'break';
    $('verdict').replaceChildren();
    showTexts();
    if (stage.session.office) this.refresh(stage);
    else if (name === 'film') await stage.play(stage.film);
    else await stage.begin();
  }

  // Shows what has changed. Where the element that has the focus can't have it any more, one near it gets it.
  refresh(stage) {
    if (stage !== this.stage || !stage.session.office) return;
    const focused = document.activeElement;
    this.show(stage, stage.session.office);
    if (focused !== document.body && (focused.disabled || !focused.isConnected)) this.focusNear(focused);
  }

  focusNear(lost) {
    const chosen = document.querySelector('.phone[aria-current="true"]');
    const places = [lost.closest('.phone, .marker, .buttons'), chosen, $('work')];
    const next = places.map(it => it?.querySelector('button:enabled:not(.choose)')).find(it => it);
    (next ?? $('panel')).focus();
  }

  show(stage, office) {
    stage.show();
    this.picture.show(office, stage.lines);
    const stamps = stage.stamps ?? {};
    for (const [name, place] of [['real', 'real-stamp'], ['naive', 'naive-stamp']]) setText($(place), stamps[name] ?? '');
    if (stage.naive) this.naive.show(new Office(stage.naive.look, true), stage.lines, stage.naive.shared);
    setText($('real-title'), titleWords(office));
    showLegend($('legend'), office, Boolean(stage.naive));
    showGroups($('groups'), office);
    showMarkers($('markers'), stage);
    showTurns($('turns'), office);
    showCards($('cards'), office);
    this.showSteps(stage, office);
    const last = office.events[office.events.length - 1];
    // A row that changed nothing leaves the words of the one before it.
    if (last || !office.hasRows || stage !== this.said?.stage) this.said = { stage, last, office };
    setText($('say'), this.said.last ? eventWords(this.said.last, this.said.office) : t('say.start'));
    // Quick steps would keep a screen reader from ever ending a sentence: it is told the phases instead.
    const isQuick = stage.auto && DELAYS[stage.speed] < 1000;
    const told = isQuick && last && !last.record ? phaseWords(office, stage.session.trail, last.marker) : $('say').textContent;
    setText($('told'), told);
    setText($('message'), stage.message ?? '');
    setText($('intro'), t(`intro.${stage.name}`));
    $('auto').checked = stage.auto;
    $('speed').value = stage.speed;
    $('undo').disabled = !stage.session.marks.length;
    $('one').disabled = office.isQuiet && stage.name !== 'rush' && stage.name !== 'film';
    if (stage.session.rows.length !== this.shownRows) $('verdict').replaceChildren();
    this.shownRows = stage.session.rows.length;
  }

  // The phases of the jobs that are under way, and a click for each step that was just made.
  showSteps(stage, office) {
    const isMany = office.markers.length > MANY_MARKERS, { rows, trail } = stage.session;
    $('phases').hidden = isMany;
    const moved = office.lastSteps.filter(it => ['close', 'open'].includes(it.act) && it.object.kind !== 'group').pop();
    if (moved) this.closeup.show(moved);
    this.closeup.tell();
    $('closeup').hidden = isMany || !office.records.length;
    if (!isMany) showPhases($('phases'), office, trail);
    if (rows.length > (this.shownRows ?? 0)) for (const step of office.lastSteps.slice(-3)) this.sound.click(sideOf(step));
    $('mute').hidden = !this.sound.isThere || this.sound.volume === 0;
    $('mute').setAttribute('aria-pressed', this.sound.isMuted);
  }

  // The fault of a plan with rows in a text, or null if the engine takes them.
  async faultOf(plan, kinds, rows) {
    const { status, text } = await this.engine.answer(TASK.lookAsJson, plan, kinds, rows);
    return status === 0 ? null : { status, line: text.trim() };
  }

  // Lets markers work, as fast as the visitor wants.
  async work() {
    for (;;) {
      const { stage } = this;
      await pause(DELAYS[stage.speed]);
      if (stage.auto && stage === this.stage && stage.session.office && !document.querySelector('dialog[open]')) {
        await stage.autoStep().catch(error => stage.session.failed(error));
      }
      if (DELAYS[stage.speed] === 0) await new Promise(requestAnimationFrame);
    }
  }

  listen() {
    const now = () => this.stage;
    stayAtEnd($('turns'));
    for (const tab of $('modes').children) tab.onclick = () => this.choose(tab.dataset.mode);
    $('modes').onkeydown = event => this.moveTab(event);
    $('auto').onchange = event => { now().auto = event.target.checked; this.refresh(now()); };
    $('speed').oninput = event => { now().speed = Number(event.target.value); };
    $('one').onclick = () => now().one();
    $('undo').onclick = () => { now().auto = false; return now().undo(); };
    $('again').onclick = () => { $('verdict').replaceChildren(); return now().again(); };
    $('audit').onclick = () => now().judge();
    for (const name of ['files', 'about']) $(name).onclick = () => this.openDialog($(`${name}-dialog`));
    document.addEventListener('keydown', event => this.typed(event));
    for (const name of ['pointerdown', 'keydown']) document.addEventListener(name, () => this.sound.wake(), true);
    for (const name of ['picture', 'naive']) $(name).onclick = event => this.touched(event.target);
    $('mute').onclick = () => { this.sound.mute(!this.sound.isMuted); this.refresh(now()); };
  }

  // Tells what was touched in a picture.
  touched(part) {
    const words = touchedWords(part, this.stage.session.office);
    if (words) for (const name of ['say', 'told']) setText($(name), words);
  }

  openDialog(dialog) {
    this.showAbout();
    dialog.querySelector('.close').onclick = () => dialog.close();
    dialog.showModal();
  }

  // Arrow keys lead from tab to tab.
  moveTab(event) {
    const far = { ArrowRight: 1, ArrowLeft: -1 }[event.key];
    if (!far) return;
    const tabs = [...$('modes').children], at = tabs.findIndex(tab => tab.dataset.mode === this.stage.name);
    const tab = tabs[(at + far + tabs.length) % tabs.length];
    tab.focus();
    this.choose(tab.dataset.mode);
  }

  // Digits dial on the chosen telephone, and two letters step the markers of a contest.
  typed(event) {
    const isOther = event.target.matches('input, select') || event.ctrlKey || event.altKey || event.metaKey;
    if (isOther) return;
    if (/^\d$/.test(event.key) && this.stage.name === 'day') this.stage.dial(event.key);
    else this.stage.typed?.(event.key);
  }

  showLanguages() {
    const choice = $('language');
    choice.replaceChildren(...texts.languages.map(it => element('option', { value: it, lang: it }, texts.all[it].name)));
    choice.value = texts.language;
    choice.onchange = () => {
      texts.use(choice.value);
      this.showTexts();
      this.refresh(this.stage);
    };
    this.showTexts();
  }

  showTexts() {
    document.documentElement.lang = texts.language;
    document.title = t('title');
    // In every language, for whoever comes by.
    setText($('invitation'), Object.values(texts.all).map(it => it.attract).filter(it => it).join(' · '));
    for (const verdict of document.querySelectorAll('output')) verdict.replaceChildren();
    showTexts();
  }

  showAbout() {
    // What is trusted, and where to read on, is for whoever can leave the page.
    const more = this.isKiosk ? [] : ['proved', this.engine.name, 'page', 'naive', 'more'];
    const parts = ['what', 'history', 'own', ...more];
    const bay = element('figure', {}, bayFigure(), element('figcaption', {}, t('about.bay')));
    $('about-text').replaceChildren(bay, ...parts.map(part => element('p', {}, t(`about.${part}`))));
  }
}

// For tests: what stands, and when nothing is under way.
function exposed(page) {
  const session = () => page.stage.session;
  return {
    page,
    engine: page.engine,
    rows: () => session().text(),
    plan: () => session().plan,
    kinds: () => session().kinds,
    look: () => session().office.look,
    timings: () => session().timings,
    idle: () => session().queue.then(() => new Promise(requestAnimationFrame)),
  };
}

// Whether the browser lacks something that the page can't do without.
const isTooOld = () => typeof DecompressionStream === 'undefined' || !CSS.supports('selector(&)');

if (isTooOld()) {
  $('message').textContent = t('fault.browser');
  showTexts();
} else openEngine().then(async engine => {
  const page = new Page(engine);
  await page.start();
  window.exhibit = exposed(page);
}).catch(error => { $('message').textContent = t('fault.engine', { error: error.message ?? error }); showTexts(); });
