// Not this office: markers without connectors. They make a dial tone job's steps in the same order as the
// office's markers, each when the office's marker makes its own, but ask nobody before they read and write. So
// two of them can pick the same register and the same links. Nothing here is proved, and nothing of it is
// shown but in the part of the page that says so.
import { crosspointsOf, KINDS, linksOf, pathParts } from './office.js';

export class NaiveOffice {
  constructor(plan) {
    this.plan = plan;
    this.fields = new Map();
    this.busy = new Set();
    this.records = [];
    this.jobs = new Map();
    this.registers = plan.groups.findIndex(group => group.kind === 'register');
    this.faults = new Set(plan.faults);
  }

  // What these rows lead to. Only dial tone jobs are known.
  static after(plan, rows) {
    const office = new NaiveOffice(plan);
    for (const row of rows) {
      if (row.steps !== undefined) for (let count = 0; count < row.steps; count++) office.step(row.marker);
      else office.assign(row.text.split(','));
    }
    return office;
  }

  assign([, marker, number, kind, line]) {
    if (kind === 'D') this.jobs.set(Number(marker), this.dial(Number(marker), Number(number), line));
  }

  step(marker) {
    const job = this.jobs.get(marker);
    if (job?.next().done) this.jobs.delete(marker);
  }

  field(word, field) { return this.fields.get(`${word},${field}`) ?? 0; }

  // A dial tone job. It stops at each `yield`, that is after each step.
  * dial(marker, number, line) {
    const { l, s, x } = pathParts(`${line}-0-000`);
    yield* this.notAsking(2);
    const fields = this.read(20 * l + s);
    yield;
    if (fields.includes(x + 1)) return yield* this.turn(marker, number, line, { end: 'LINEBUSY', frees: 1 });
    yield* this.notAsking(2);
    const members = this.plan.groups[this.registers].members.map((_, member) => member);
    const idle = members.filter(member => !this.busy.has(member));
    yield;
    if (!idle.length) return yield* this.turn(marker, number, line, { end: 'REGISTERSBUSY', frees: 2 });
    yield* this.trials(marker, number, line, idle, fields);
  }

  // Both trials, and the end.
  * trials(marker, number, line, idle, lineFields) {
    const cards = [], kept = { frames: new Set(), words: new Map() };
    for (const [trial, member, start] of [[1, idle[0], 0], [2, idle[1] ?? idle[0], 5]]) {
      const place = this.plan.groups[this.registers].members[member][0];
      const found = yield* this.trial(line, place, start, lineFields, kept);
      if (found?.fault) cards.push({ trial, link: found.fault });
      const path = found && !found.fault ? { end: 'DIALTONE', trial, path: found, member } : null;
      if (path) return yield* this.turn(marker, number, line, { ...path, cards, frees: 2 + kept.frames.size });
    }
    const end = cards.length ? 'TROUBLE' : 'NOPATH';
    yield* this.turn(marker, number, line, { end, cards, frees: 2 + kept.frames.size });
  }

  // One trial: the first channel that it takes for idle, or a faulty link in it.
  * trial(line, place, start, lineFields, kept) {
    const { l, s, t, u } = pathParts(`${line}-0-${place}`);
    if (!kept.frames.has(t)) yield* this.notAsking(2);
    kept.frames.add(t);
    const trunkFields = yield* this.readOnce(kept.words, 200 + 20 * t + u), junctors = [];
    for (let n = 0; n < 10; n++) junctors.push((yield* this.readOnce(kept.words, 20 * l + 10 + n))[t]);
    const channels = Array.from({ length: 10 }, (_, at) => (start + at) % 10);
    const n = channels.find(it => !lineFields[it] && !junctors[it] && !trunkFields[it]);
    if (n === undefined) return null;
    const path = pathParts(`${line}-${n}-${place}`), fault = linksOf(path).find(link => this.faults.has(link));
    return fault ? { fault } : path;
  }

  // The turn, the effects, and as many steps as the office's marker takes to free its connectors.
  * turn(marker, number, line, { end, trial = null, path = null, member = null, cards = [], frees }) {
    const job = { number, kind: 'D', line, dialled: null };
    const text = path?.text ?? null;
    this.records.push({ turn: this.records.length, marker, job, end, trial, path: text, other: null, cards });
    yield;
    if (path) {
      const { s, u, a, x } = path, values = [x + 1, s + 1, u + 1, a + 1];
      for (const [at, key] of crosspointsOf(path).entries()) {
        this.fields.set(key, (this.fields.get(key) ?? 0) | values[at]);
        yield;
      }
      this.busy.add(member);
      yield;
    }
    yield* this.notAsking(frees);
  }

  // The steps at which the office's marker asks for connectors, seizes or frees them: nothing happens.
  * notAsking(count) { for (; count > 0; count--) yield; }

  read(word) { return Array.from({ length: 10 }, (_, field) => this.field(word, field)); }

  * readOnce(kept, word) {
    if (kept.has(word)) return kept.get(word);
    kept.set(word, this.read(word));
    yield;
    return kept.get(word);
  }

  // The links that carry two calls or more, each with its lines.
  get shared() {
    const users = new Map();
    for (const { path } of this.records) {
      if (!path) continue;
      const parts = pathParts(path);
      for (const link of linksOf(parts)) users.set(link, [...users.get(link) ?? [], parts.line]);
    }
    return [...users].filter(([, lines]) => lines.length > 1).map(([link, lines]) => ({ link, lines }));
  }

  // The same as a look, so that the same picture can show it.
  get look() {
    const shown = new Map();
    for (const [key, value] of this.fields) {
      const [word, field] = key.split(',').map(Number);
      if (!shown.has(word)) shown.set(word, { word, object: switchOf(word), items: [] });
      shown.get(word).items.push({ field, value, name: '' });
    }
    const busy = [...this.busy].map(field => ({ field, value: 1, name: '' }));
    const group = { word: 400 + this.registers, object: { kind: 'group', number: this.registers }, items: busy };
    const { plan, records } = this;
    return { plan, records, shown: [...shown.values(), group], markers: [], connectors: [], words: [], events: [] };
  }
}

// The switch that has this word.
function switchOf(word) {
  const trunks = word >= 200, at = trunks ? word - 200 : word, frame = Math.floor(at / 20), number = at % 10;
  const second = at % 20 >= 10;
  const kinds = trunks ? [KINDS.trunkSwitch, KINDS.trunkJunctor] : [KINDS.lineSwitch, KINDS.lineJunctor];
  return { kind: kinds[Number(second)], frame, number };
}
