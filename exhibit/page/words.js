// What the engine tells, in the visitor's language. Where the language has no words of its own for steps, they are
// the engine's.
import { t, texts } from './texts.js';
import { isThere } from './elements.js';
import { STATUS } from './session.js';
import { pathParts } from './office.js';

export function objectWords(object, office) {
  const group = object.kind === 'group' ? office.plan.groups[object.number] : null;
  if (group) return t(`object.group.${group.kind}`, { name: group.name });
  return t(`object.${object.kind}`, { frame: object.frame, number: object.number });
}

export function jobWords(job, office) {
  return t(`job.${job.kind}`, { line: office.lineName(job.line), digits: spaced(job.dialled) });
}

// Seven digits as they are read aloud: a code and a number.
export const spaced = digits => digits ? `${digits.slice(0, 3)} ${digits.slice(3)}` : '';

// The engine's words with the names of groups in place of their numbers.
const withGroups = (words, office) =>
  words.replace(/\bgroup (\d+)/g, (_, number) => objectWords({ kind: 'group', number: Number(number) }, office));

// A step, or a marker's next step.
export function stepWords(step, office) {
  if (texts.own.steps === 'engine') return withGroups(step.says, office);
  const items = (step.items ?? []).map(it => itemWords(step, it)).join(', ');
  const object = step.object ? objectWords(step.object, office) : '', end = step.record ? endWords(step.record, office) : '';
  const act = t(`act.${actOf(step)}`, { object, items, end, turn: step.turn ?? '' });
  const found = step.act === 'test' && 'found' in step ? (items ? t('found.some', { items }) : t('found.none')) : '';
  const ended = isThere(step.ended) ? t('step.ended') : '';
  return [found ? `${act}:` : act, found, deniedWords(step), ended].filter(it => it).join(' ');
}

// What a step does, for its words: on a group a marker closes no crosspoint, but marks a member busy or idle.
export function actOf({ act, object }) {
  if (object?.kind !== 'group') return act;
  return { close: 'mark', open: 'clear' }[act] ?? act;
}

function deniedWords({ holder, preferred }) {
  if (isThere(holder)) return t('denied.holder', { marker: holder });
  return isThere(preferred) ? t('denied.preferred', { marker: preferred }) : '';
}

function itemWords(step, item) {
  if (step.object.kind === 'group') return t('item.member', { member: item.field });
  return item.name.replace(' and ', ' – ').replace('line ', '').replace('place ', '');
}

// How a job ended, as a sentence.
export function endWords(record, office) {
  const { job, end, path, other } = record, at = path && pathParts(path);
  return t(`end.${end}`, {
    line: office.lineName(job.line),
    digits: spaced(job.dialled),
    channel: at?.channel,
    place: at ? office.placeName(at.place) : '',
    with: other ? t('with', { other: office.lineName(pathParts(other).line) }) : '',
  });
}

// What stands above the picture: how much was done, and the links out of order, where they are few.
const MOST_NAMED = 6;

export function titleWords({ records, paths, plan: { faults } }) {
  const title = t('real.title', { turns: records.length, paths: paths.length });
  const isNamed = faults.length > 0 && faults.length <= MOST_NAMED;
  return isNamed ? `${title} ${t('real.faults', { links: faults.join(', ') })}` : title;
}

// An event as a sentence of its marker.
export function eventWords(event, office) {
  const isJob = event.event === 'assignment';
  const words = isJob ? t('assigned', { job: jobWords(event.job, office) }) : stepWords(event, office);
  return t('marker.does', { marker: event.marker, words });
}

// What is wrong with a plan, rows or kinds that the engine refused: its fault line, and a sentence.
export function faultWords({ status, line }) {
  if (status === STATUS.outOfMemory) return t('fault.memory');
  if (status === STATUS.markersRefused) return t('fault.markers');
  const [, name, place, cause] = line.split(',');
  const why = t(`fault.${cause ?? name}`);
  return t(status === STATUS.planRefused ? 'fault.plan' : 'fault.rows', { place, why, line });
}

// Why there is no audit or drawing: the engine gave no answer, or one that is neither.
export function lackWords({ status, text, error }) {
  if (error) return t('fault.engine', { error: error.message ?? error });
  if (status === STATUS.outOfMemory) return t('fault.memory');
  return [t('fault.status', { status }), text.trim().split('\n')[0]].filter(it => it).join(' ');
}
