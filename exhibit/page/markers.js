// The list of markers: what each is about, what it does next, what it holds, and buttons to step it.
import { t } from './texts.js';
import { button, buttons, element, keepList, setText, textButton } from './elements.js';
import { MANY_MARKERS } from './office.js';
import { markerColour } from './layout.js';
import { jobWords, objectWords, stepWords } from './words.js';

export function showMarkers(list, stage) {
  const { office } = stage.session, many = office.markers.length > MANY_MARKERS;
  list.classList.toggle('many', many);
  const lastOf = new Map(office.events.map(event => [event.marker, event]));
  const make = many ? makeTile : makeMarker;
  const keyOf = it => `${stage.name} ${it.marker} ${many}`;
  keepList(list, office.markers, keyOf, it => make(it.marker, stage), (it, marker) => {
    it.classList.toggle('working', Boolean(marker.job));
    for (const name of ['step', 'finish']) {
      const press = it.querySelector(`.${name}`);
      if (press) press.disabled = !marker.job || stage.isPlaying;
    }
    if (many) updateTile(it, marker, office);
    else updateMarker(it, marker, office, lastOf.get(marker.marker));
  });
}

function makeMarker(number, stage) {
  return element('li', { class: 'marker', 'data-marker': number, style: `--own:${markerColour(number)}` },
    element('span', { class: 'mark', 'aria-hidden': 'true' }, number),
    element('h3', {}), ...['last', 'next', 'holds'].map(name => element('p', { class: name })),
    buttons(textButton('step', () => stage.step(number), { class: 'step main' }),
      textButton('finish', () => stage.finish(number), { class: 'finish quiet' })));
}

function updateMarker(it, marker, office, last) {
  const { job, next, held, requested } = marker;
  setText(it.querySelector('h3'), markerTitle(marker, office));
  for (const name of ['step', 'finish']) {
    it.querySelector(`.${name}`).setAttribute('aria-label', t(`marker.${name}`, { marker: marker.marker }));
  }
  setText(it.querySelector('.next'), next ? t('next', { words: stepWords(next, office) }) : '');
  setText(it.querySelector('.last'), last?.event === 'step' ? t('last', { words: stepWords(last, office) }) : '');
  const holds = held.length ? t('holds', { connectors: held.map(it => objectWords(it, office)).join(', ') }) : '';
  const wants = requested ? t('wants', { connector: objectWords(requested, office) }) : '';
  setText(it.querySelector('.holds'), [holds, wants].filter(it => it).join(' '));
  it.classList.toggle('denied', last?.event === 'step' && (last.holder !== null || last.preferred !== null));
}

function markerTitle({ marker, job }, office) {
  return t('marker.title', { marker, job: job ? jobWords(job, office) : t('idle') });
}

function makeTile(number, stage) {
  return element('li', { class: 'marker', 'data-marker': number, style: `--own:${markerColour(number)}` },
    button(number, () => stage.step(number), { class: 'step' }));
}

function updateTile(it, marker, office) {
  const words = markerTitle(marker, office);
  const next = marker.next ? t('next', { words: stepWords(marker.next, office) }) : '';
  const press = it.querySelector('.step');
  press.title = `${words}. ${next}`;
  press.setAttribute('aria-label', press.title);
  it.classList.toggle('holding', marker.held.length > 0);
  it.classList.toggle('past', marker.turn !== null);
}
