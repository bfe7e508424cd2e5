// The records in the order of their turns, the audit's verdict on them, and the trouble cards.
import { t, texts } from './texts.js';
import { element, keepList, textButton } from './elements.js';
import { STATUS } from './session.js';
import { linkParts } from './office.js';
import { markerColour } from './layout.js';
import { endWords, lackWords } from './words.js';

const MOST_SHOWN = 200;

export function showTurns(list, office) {
  const shown = office.records.slice(-MOST_SHOWN), last = `${texts.language} ${office.records.length}`;
  if (list.dataset.last === last && shown.length === list.children.length) return;
  list.dataset.last = last;
  list.tabIndex = shown.length ? 0 : -1;
  const keyOf = it => `${it.turn} ${it.job.number} ${it.end} ${texts.language}`;
  keepList(list, shown, keyOf, it => makeTurn(it, office), () => {});
  list.scrollTop = list.scrollHeight;
}

// Keeps the end of a list in view when its height changes, unless the visitor has scrolled away from it.
export function stayAtEnd(list) {
  let isAtEnd = true;
  list.onscroll = () => { isAtEnd = list.scrollHeight - list.scrollTop - list.clientHeight < 4; };
  new ResizeObserver(() => { if (isAtEnd) list.scrollTop = list.scrollHeight; }).observe(list);
}

function makeTurn(record, office) {
  const words = endWords(record, office), path = [record.path, record.other].filter(it => it).join(' + ');
  return element('li', { 'data-turn': record.turn, value: record.turn, style: `--own:${markerColour(record.marker)}` },
    element('span', { class: 'turn' }, record.turn),
    element('span', { class: 'mark' }, record.marker),
    element('span', { class: 'words' }, words, path ? element('code', {}, path) : ''));
}

export function showCards(place, office) {
  const cards = office.records.flatMap(record => record.cards.map(card => ({ record, card }))).slice(-MOST_SHOWN);
  place.parentElement.hidden = cards.length === 0;
  const keyOf = it => `${it.record.turn} ${it.card.trial} ${texts.language}`;
  const last = place.lastChild;
  keepList(place, cards, keyOf, makeCard, () => {});
  if (place.lastChild !== last) place.scrollTop = place.scrollHeight;
}

// A trouble card as it is punched: the kind of the link, and its three digits, each in a row of ten places.
function makeCard({ record, card }) {
  const { kind, digits } = linkParts(card.link), { turn, job, marker } = record;
  const names = [t(`punch.${kind}.0`), t(`punch.${kind}.1`), t('punch.channel')];
  const place = (digit, at) => at === digit ? element('i', { class: 'hole' }) : element('i', {}, at);
  const rows = digits.map((digit, row) => element('div', { class: 'punches' }, element('span', {}, names[row]),
    ...Array.from({ length: 10 }, (_, at) => place(digit, at))));
  return element('article', { class: 'card' },
    element('h3', {}, t('card.title'), element('b', {}, card.link)),
    element('p', {}, t('card.says', { turn, job: job.number, marker, trial: card.trial, link: t(`link.${kind}`) })),
    element('div', { class: 'punched', 'aria-hidden': 'true' }, ...rows),
    textButton('card.print', event => printCard(event.target.closest('.card')), { class: 'print' }));
}

// Prints a card, and nothing else.
function printCard(card) {
  card.classList.add('printed');
  window.print();
  card.classList.remove('printed');
}

// Asks the audit about these records, and shows its answer, or why there is none.
export async function judge(session, records, verdict) {
  const answer = await session.judge(records).catch(error => ({ error }));
  if (answer.status !== STATUS.fine && answer.status !== STATUS.foundWrong) return showUnjudged(answer, verdict);
  const lines = answer.text.trim().split('\n'), [, finding, place] = lines[0].split(',');
  verdict.className = finding === 'LEGAL' ? 'legal' : 'illegal';
  verdict.replaceChildren(element('code', {}, lines[0]), ' ', t(`audit.${finding}`, { place }));
  if (finding === 'REPLY') verdict.append(element('pre', {}, lines.slice(1).join('\n')));
}

function showUnjudged(answer, verdict) {
  const isNoRecords = answer.text?.startsWith('FAULT,U1,');
  verdict.className = 'unjudged';
  verdict.replaceChildren(t('audit.unjudged', { why: isNoRecords ? t('audit.U1') : lackWords(answer) }));
}
