// Files: a plan or rows that a visitor opens or drops, and what can be saved of an office.
import { t } from './texts.js';
import { $, element, setText } from './elements.js';
import { rowsOf, STATUS, TASK } from './session.js';
import { faultWords, lackWords } from './words.js';
import { RUSH_MARKERS } from './rush.js';

const MOST_BYTES = 4 * 1024 * 1024;

function save(name, type, text) {
  const link = element('a', { href: URL.createObjectURL(new Blob([text], { type })), download: name });
  document.body.append(link);
  link.click();
  link.remove();
  setTimeout(() => URL.revokeObjectURL(link.href), 10000);
}

export class Files {
  constructor(page) {
    this.page = page;
    const stage = () => page.stage, session = () => page.stage.session;
    $('save-rows').onclick = () => save('rows.csv', 'text/csv', session().text());
    $('save-records').onclick = () => save('records.csv', 'text/csv', session().recordsText());
    $('save-svg').onclick = () => this.saveDrawing(stage());
    $('file').onchange = event => this.open([...event.target.files]);
    document.addEventListener('dragover', event => event.preventDefault());
    document.addEventListener('drop', event => {
      event.preventDefault();
      if (!page.isKiosk) this.open([...event.dataTransfer.files]);
    });
  }

  // Saves a drawing, or tells why there is none.
  async saveDrawing({ session }) {
    const call = [TASK.draw, session.plan, session.kinds, session.recordsText()];
    const answer = await session.engine.answer(...call).catch(error => ({ error }));
    if (answer.status !== STATUS.fine) return this.tell(t('save.undrawn', { why: lackWords(answer) }));
    setText($('files-message'), '');
    save('office.svg', 'image/svg+xml', answer.text);
  }

  // Takes the first file: a plan if it is one, else rows. What is neither changes nothing, and its fault is told.
  async open([file]) {
    if (!file) return;
    const name = file.name;
    if (file.size > MOST_BYTES) return this.tell(t('file.large', { name, most: '4 MiB' }));
    let text;
    try {
      text = new TextDecoder('utf-8', { fatal: true }).decode(await file.arrayBuffer());
    } catch {
      return this.tell(t('file.bytes', { name }));
    }
    const isPlan = /^\s*(version|groups|numbers|codes|faults)\s*=/m.test(text);
    await (isPlan ? this.openPlan(name, text) : this.openRows(name, text)).catch(error =>
      this.tell(t('fault.engine', { error: error.message ?? error })));
    $('file').value = '';
  }

  // An office with this plan, for a visitor's day.
  async openPlan(name, text) {
    const fault = await this.page.faultOf(text, 'XX', '');
    if (fault) return this.tell(t('file.refused', { name, why: faultWords(fault) }));
    const { day } = this.page.stages;
    await this.page.choose('day');
    await day.begin(text, 'XX');
    this.tell('', t('file.plan', { name }));
  }

  // A film of these rows, in an office with the plan that is shown; with other markers where they need more of them, or
  // such as take all jobs.
  async openRows(name, text) {
    const { session, kinds } = this.page.stage, plan = session.plan;
    let fault, taken = kinds;
    for (const tried of [kinds, 'XX', 'X'.repeat(RUSH_MARKERS)]) {
      taken = tried;
      fault = await this.page.faultOf(plan, tried, text);
      if (!fault || !/,C[13]$/.test(fault.line)) break;
    }
    if (fault) return this.tell(t('file.refused', { name, why: faultWords(fault) }));
    await this.page.choose('film');
    await this.page.stages.film.bring(name, plan, taken, rowsOf(text));
    this.tell('', t('file.rows', { name, count: this.page.stages.film.film.rows.length }));
  }

  // Tells what is wrong, or that all went well.
  tell(wrong, well = '') {
    setText($('files-message'), wrong || well);
    this.page.stage.message = wrong;
    this.page.refresh(this.page.stage);
  }
}
