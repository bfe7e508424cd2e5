// What the four modes have in common: an office of their own, a part of the panel, and markers that a visitor
// steps by hand or that work by themselves.
import { t } from './texts.js';
import { $, element } from './elements.js';
import { Session } from './session.js';
import { makeSteps, newVisitor } from './telephones.js';
import { faultWords } from './words.js';
import { judge } from './turns.js';

export class Stage {
  constructor(name, engine, changed, sound) {
    this.name = name;
    this.sound = sound;
    this.session = new Session(engine);
    this.session.changed = () => { if (this.isOpen) changed(this); };
    this.session.failed = error => {
      this.message = t('fault.engine', { error: error.message ?? error });
      if (this.isOpen) changed(this);
    };
    this.changed = () => changed(this);
    this.place = element('div', { class: `stage ${name}` });
    this.auto = false;
    this.speed = 5;
    this.last = 0;
  }

  // Begins anew. A fault is told, and what stood stays.
  async begin(plan = this.plan, kinds = this.kinds, rows = []) {
    const fault = await this.session.open(plan, kinds, rows, this.visitor());
    if (!fault) Object.assign(this, { plan, kinds });
    return this.tell(fault);
  }

  visitor() { return newVisitor(); }

  // Keeps what was refused as the message, and answers whether nothing was.
  tell(fault) {
    this.message = fault ? faultWords(fault) : '';
    if (fault) this.changed();
    return !fault;
  }

  async step(marker) { return this.tell(await makeSteps(this.session, marker, 1)); }

  async finish(marker) { return this.tell(await makeSteps(this.session, marker, MOST_OF_A_JOB)); }

  async undo() {
    this.message = '';
    await this.session.undo();
  }

  // One step of the next marker that has a job, one after another.
  async one() {
    const working = this.session.office.markers.filter(it => it.job).map(it => it.marker);
    if (!working.length) return false;
    this.last = working.find(it => it > this.last) ?? working[0];
    return this.step(this.last);
  }

  async autoStep() { return this.one(); }

  // The lines that have a label in the picture even while they are idle.
  get lines() { return []; }

  get isPlaying() { return false; }

  async again() { return this.begin(); }

  // Asks the audit about what was done.
  async judge() { return judge(this.session, this.session.recordsText(), $('verdict')); }

  show() {}
}

// A job that is never denied a connector has at most this many steps.
const MOST_OF_A_JOB = 128;
