// A job in a few phases that a child can follow, in place of its steps one by one. Which phase a step belongs to follows
// from the job's kind and the steps before it. A phase keeps its steps, for whoever unfolds it.
import { t } from './texts.js';
import { element, keepList, setFlag, setText } from './elements.js';
import { markerColour } from './layout.js';
import { actOf, jobWords } from './words.js';

// The phases of each kind of job, in their order.
export const PHASES = {
  D: ['line', 'register', 'path', 'close'],
  C: ['digits', 'called', 'trunk', 'paths', 'connect'],
  R: ['trace', 'open'],
};

const isFrame = kind => kind.endsWith('frame');

// Where a job is: its phase, whether its register was found, and whether it has taken its turn.
const beginning = kind => ({ phase: PHASES[kind][0], hasRegister: false, isPast: false });

// Where it is after a step. What a step looks at tells the phase; giving back before the turn begins the job anew.
function after(kind, at, step, isRegisters) {
  const object = step.object?.kind ?? '', all = PHASES[kind], last = all[all.length - 1];
  if (at.isPast || step.act === 'turn') return { ...at, phase: last, isPast: true };
  if (step.act === 'withdraw' || step.act === 'free') return beginning(kind);
  if (kind === 'R') return at;
  if (kind === 'D') return { ...at, phase: dialPhase(at.phase, object) };
  if (object === 'group') {
    return isRegisters(step.object.number) ? { ...at, hasRegister: true } : { ...at, phase: 'trunk' };
  }
  if (at.phase === 'trunk' || at.phase === 'paths') return { ...at, phase: 'paths' };
  return at.hasRegister ? { ...at, phase: 'called' } : at;
}

function dialPhase(before, object) {
  if (object === 'group') return 'register';
  return object === 'line link frame' || object === 'line switch' ? 'line' : 'path';
}

// What a marker has done of its job, phase by phase. `next` is its next step, if it has one.
export function phasesOf(kind, steps, next, isRegisters = number => number === 0) {
  const found = new Map(PHASES[kind].map(phase => [phase, []]));
  let at = beginning(kind);
  for (const step of steps) {
    at = after(kind, at, step, isRegisters);
    found.get(at.phase).push(step);
  }
  const now = next ? after(kind, at, next, isRegisters).phase : null, place = PHASES[kind].indexOf(now);
  return PHASES[kind].map((phase, it) =>
    ({ phase, steps: found.get(phase), isNow: phase === now, isDone: !now || it < place }));
}

// A step in words that a child has.
export function childWords(step) {
  const object = step.object?.kind ?? '', what = isFrame(object) ? 'frame' : object || 'turn';
  const key = `child.${actOf(step)}.${what}`;
  return t(key, { frame: step.object?.frame ?? step.object?.number ?? '', number: step.object?.number ?? '' });
}

// The phase that a marker is in, as a sentence.
export function phaseWords(office, trail, number) {
  const { job, next } = office.markers[number];
  if (!job) return '';
  const isRegisters = it => office.plan.groups[it].kind === 'register';
  const now = phasesOf(job.kind, trail.stepsOf(number, job.number), next, isRegisters).find(it => it.isNow);
  return now ? t('told.phase', { marker: number, phase: t(`phase.${job.kind}.${now.phase}`) }) : '';
}

// Shows the jobs of the markers that work, each as a row of its phases.
export function showPhases(place, office, trail) {
  const working = office.markers.filter(it => it.job);
  const isRegisters = number => office.plan.groups[number].kind === 'register';
  keepList(place, working, it => `${it.marker} ${it.job.number}`, makeRow, (it, marker) => {
    const steps = trail.stepsOf(marker.marker, marker.job.number);
    const phases = phasesOf(marker.job.kind, steps, marker.next, isRegisters);
    setText(it.querySelector('.whose'), jobWords(marker.job, office));
    phases.forEach((phase, at) => updateChip(it.querySelectorAll('.chip')[at], marker.job.kind, phase));
  });
}

function makeRow({ marker, job }) {
  const chips = PHASES[job.kind].map(() =>
    element('details', { class: 'chip' }, element('summary', {}), element('ol', {})));
  return element('li', { style: `--own:${markerColour(marker)}` },
    element('span', { class: 'mark', 'aria-hidden': 'true' }, marker), element('span', { class: 'whose' }), ...chips);
}

function updateChip(it, kind, { phase, steps, isNow, isDone }) {
  setFlag(it, 'data-now', isNow);
  setFlag(it, 'data-done', isDone);
  setText(it.querySelector('summary'), t(`phase.${kind}.${phase}`));
  const list = it.querySelector('ol');
  if (list.children.length > steps.length) list.replaceChildren();
  for (const step of steps.slice(list.children.length)) list.append(element('li', {}, childWords(step)));
}
