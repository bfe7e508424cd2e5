// What a visitor has made of an office: its plan, its markers' kinds, and rows of traffic. The rows are
// all that there is; what stands is what the engine says of them. To step a marker is to add a row, to undo
// is to take one back.
import { MANY_MARKERS, Office } from './office.js';
import { Trail } from './trail.js';

export const TASK = { replay: 0, audit: 4, draw: 6, lookAsJson: 9 };
export const STATUS = { fine: 0, markersRefused: 2, planRefused: 3, outOfMemory: 5, foundWrong: 7 };
const MOST_STEPS = 9999;
export const MOST_JOBS = 10000;

// Rows as text. Neighbouring steps of one marker become one row, but for the last, whose events are shown.
function rowsText(rows, splitLast = false) {
  const last = splitLast ? rows.length - 1 : rows.length;
  let text = '', marker = null, count = 0;
  const flush = () => {
    if (count) text += `S,${marker},${count},,\n`;
    count = 0;
  };
  rows.forEach((row, place) => {
    if (row.steps === undefined || row.marker !== marker || count + row.steps > MOST_STEPS || place === last) flush();
    if (row.steps === undefined) text += row.text + '\n';
    else { marker = row.marker; count += row.steps; }
  });
  flush();
  return text;
}

export const assignment = (marker, job, kind, args) => ({ job, text: `J,${marker},${job},${kind},${args}` });
export const steps = (marker, count) => ({ marker, steps: count });

// The rows of a text of traffic, for playing it: steps apart from other rows, which stay as they are.
export function rowsOf(text) {
  return text.replace(/^\ufeff/, '').split(/\r\n|\r|\n/).filter(line => line).map(line => {
    const [, marker, count] = /^S,(\d+),(\d+),,$/.exec(line) ?? [];
    if (marker !== undefined) return steps(Number(marker), Number(count));
    return { text: line, job: Number(line.split(',')[2]) };
  });
}

export class Session {
  constructor(engine) {
    this.engine = engine;
    this.queue = Promise.resolve();
    this.changed = () => {};
    this.timings = [];
    this.trail = new Trail();
  }

  // Does one thing after another.
  inTurn(action) {
    const done = this.queue.then(action);
    this.queue = done.catch(error => this.failed?.(error));
    return done;
  }

  // Begins an office anew. A refused plan or row changes nothing, and its fault is answered.
  open(plan, kinds, rows = [], visitor = null) {
    return this.inTurn(async () => {
      const found = await this.lookAt(plan, kinds, rows);
      if (found.fault) return found.fault;
      Object.assign(this, { plan, kinds, rows, visitor, marks: [], trail: new Trail() });
      this.show(found);
      return null;
    });
  }

  // Adds rows as one action, which one undo takes back. `visitor` is what the visitor's side is afterwards.
  add(rows, visitor = this.visitor) {
    return this.inTurn(() => this.addNow(rows, visitor));
  }

  // The same without waiting for what is under way. Where it is joined to the action before, one undo takes
  // back both; where each row is an action, one undo takes back a row.
  async addNow(rows, visitor = this.visitor, isJoined = false, isEachAlone = false) {
    const began = performance.now();
    const found = await this.lookAt(this.plan, this.kinds, [...this.rows, ...rows]);
    if (found.fault) return found.fault;
    const trail = this.trail.length, mark = length => ({ length, trail, visitor: this.visitor });
    if (!isJoined) this.marks.push(mark(this.rows.length));
    for (let at = 1; isEachAlone && at < rows.length; at++) {
      this.marks.push(mark(this.rows.length + at));
    }
    this.rows.push(...rows);
    this.visitor = visitor;
    this.trail.add(found.office);
    this.show(found, began);
    return null;
  }

  undo() {
    return this.inTurn(async () => {
      const mark = this.marks.pop();
      if (!mark) return;
      this.rows.length = mark.length;
      this.visitor = mark.visitor;
      this.trail.cut(mark.trail);
      const found = await this.lookAt(this.plan, this.kinds, this.rows);
      this.show(found);
    });
  }

  async lookAt(plan, kinds, rows) {
    const { status, text } = await this.engine.answer(...lookCall(plan, kinds, rows));
    if (status !== STATUS.fine) return { fault: { status, line: text.trim() } };
    return { office: new Office(JSON.parse(text), rows.length > 0) };
  }

  show(found, began = performance.now()) {
    this.office = found.office;
    this.changed();
    this.timings.push(performance.now() - began);
    if (this.timings.length > 1000) this.timings.shift();
    this.prepare();
  }

  // Where the engine works ahead, names the next step of each of a few markers to it.
  prepare() {
    const working = this.office.markers.filter(it => it.job);
    if (!this.engine.prepare || working.length > MANY_MARKERS) return;
    const call = it => lookCall(this.plan, this.kinds, [...this.rows, steps(it.marker, 1)]);
    this.engine.prepare(working.map(call));
  }

  text() { return rowsText(this.rows); }

  // A job number that no row has, or null where all are used.
  nextJob() {
    const used = new Set(this.rows.filter(row => row.steps === undefined).map(row => row.job));
    if (used.size >= MOST_JOBS) return null;
    let number = used.size;
    while (used.has(number)) number = (number + 1) % MOST_JOBS;
    return number;
  }

  // The records so far, without counts, which an unsettled office need not have.
  recordsText() { return recordsText(this.office.records); }

  // What the audit answers about these records: its status and its text.
  judge(records) { return this.engine.answer(TASK.audit, this.plan, this.kinds, records); }
}

// The call of the engine for what stands after these rows, with the events of the last one.
const lookCall = (plan, kinds, rows) => [TASK.lookAsJson, plan, kinds, rowsText(rows, true)];

// Records, and their trouble cards, as the program writes them.
export const recordsText = records => records.map(recordText).join('') + cardsText(records);

function recordText(it) {
  const { number, kind, line, dialled } = it.job;
  const parts = [it.turn, number, it.marker, kind, line, dialled, it.end, it.trial, it.path, it.other];
  return parts.map(part => part ?? '-').join() + '\n';
}

function cardsText(records) {
  const lineOf = it => card => `TROUBLE,${it.turn},${it.job.number},${card.trial},${card.link}\n`;
  return records.flatMap(it => it.cards.map(lineOf(it))).join('');
}
