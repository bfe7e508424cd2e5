// Rush hour: 48 markers, and lines that lift, dial and hang up by chance. It ends after a number of jobs.
import { t } from './texts.js';
import { button, buttons, element, setText } from './elements.js';
import { assignment, steps } from './session.js';
import { Stage } from './stage.js';

export const RUSH_MARKERS = 48;
const RUSH_JOBS = 1000, RUSH_LINES = 40, MOST_AT_ONCE = 28;
// How many rows are made before the next look, by the speed.
const AT_ONCE = [1, 1, 1, 1, 1, 1, 3, 3, 8, 8, 20];

export class RushStage extends Stage {
  constructor(engine, changed, sound) {
    super('rush', engine, changed, sound);
    this.plan = PLANS.rush_hour;
    this.kinds = 'X'.repeat(RUSH_MARKERS);
    this.auto = true;
    this.speed = 10;
    this.told = element('p', { class: 'told', role: 'status' });
    const press = button(element('span', {}), () => this.toggle(), { id: 'pause', class: 'main' });
    this.place.append(buttons(press), this.told);
  }

  // At the higher speeds several markers make some steps each before they are shown. One undo takes back those of one.
  async autoStep() { return this.act(AT_ONCE[this.speed], this.speed > 3); }

  toggle() {
    this.auto = !this.auto;
    this.changed();
  }

  async one() { return this.act(1); }

  async act(count, isFast = false) {
    const { session } = this;
    const add = () => session.addNow(this.chooseRows(count, isFast), session.visitor, false, true);
    const fault = await session.inTurn(add);
    if (this.isOver) this.auto = false;
    return this.tell(fault);
  }

  get isOver() { return this.session.nextJob() === null || this.session.nextJob() >= RUSH_JOBS; }

  // Rows by chance: jobs for idle markers now and then, and steps of those that have jobs, at the higher speeds rather
  // of those that hold a connector.
  chooseRows(count, isFast) {
    const { office } = this.session, rows = [];
    const those = test => office.markers.filter(test).map(it => it.marker);
    const working = those(it => it.job), idle = those(it => !it.job), holding = those(it => it.held.length);
    const lines = new Set(office.markers.flatMap(it => it.job?.line ?? []));
    const likely = isFast ? 0.3 : 0.06;
    let number = this.isOver ? null : this.session.nextJob();
    for (; count > 0; count--) {
      const wantsJob = number !== null && idle.length && (!working.length || Math.random() < likely);
      const job = wantsJob ? this.chooseJob(office, lines) : null;
      if (job) {
        const marker = idle.splice(Math.floor(Math.random() * idle.length), 1)[0];
        rows.push(assignment(marker, number, job.kind, job.args));
        lines.add(job.line);
        working.push(marker);
        number = number + 1 < RUSH_JOBS ? number + 1 : null;
      } else if (working.length) {
        const marker = isFast && holding.length && Math.random() < 0.5 ? chosen(holding) : chosen(working);
        rows.push(steps(marker, isFast ? 1 + Math.floor(Math.random() ** 2 * MOST_AT_ONCE) : 1));
      }
    }
    return rows;
  }

  // A job of a line that has none: it dials where it has a register, may hang up where it talks, else lifts.
  chooseJob(office, lines) {
    const all = office.plan.numbers.flatMap(it => it.lines).filter(line => !lines.has(line));
    const line = all[Math.floor(Math.random() * all.length)], path = line && office.pathOf(line);
    if (!line) return null;
    if (!path) return office.paths.length < RUSH_LINES ? { line, kind: 'D', args: line } : null;
    if (office.kindOf(path.place) !== 'register') return { line, kind: 'R', args: line };
    const { code } = chosen(office.plan.codes), { number } = chosen(office.plan.numbers);
    return { line, kind: 'C', args: `${line} ${code}${number}` };
  }

  show() {
    const { office } = this.session, press = this.place.querySelector('#pause span');
    setText(press, t(this.isOver ? 'rush.over' : this.auto ? 'rush.pause' : office.hasRows ? 'rush.on' : 'rush.start'));
    this.place.querySelector('#pause').disabled = this.isOver;
    const working = office.markers.filter(it => it.job).length;
    const cards = office.records.reduce((sum, it) => sum + it.cards.length, 0);
    setText(this.told, t('rush.told', { turns: office.records.length, working, paths: office.paths.length, cards }));
  }
}

export const chosen = list => list[Math.floor(Math.random() * list.length)];
