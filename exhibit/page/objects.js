// Line drawings of what the office is made of: a telephone, a crossbar switch whose contacts close, a marker's bay.
import { t } from './texts.js';
import { figure, setFlag } from './elements.js';

const line = (x1, y1, x2, y2, kinds = '') => figure('line', { x1, y1, x2, y2, class: kinds || null });

// A desk telephone with its dial. Its receiver lies on the cradle, or beside it once it is lifted.
export function telephoneFigure() {
  const holes = Array.from({ length: 10 }, (_, at) => {
    const angle = (-30 - 30 * at) * Math.PI / 180;
    return figure('circle', { cx: 40 + 9.5 * Math.cos(angle), cy: 46 + 9.5 * Math.sin(angle), r: 2 });
  });
  return figure('svg', { viewBox: '0 0 80 72', class: 'telephone', 'aria-hidden': 'true' },
    figure('path', { d: 'M14 66 C16 44 24 30 30 28 H50 C56 30 64 44 66 66 Z' }),
    line(24, 28, 24, 20), line(56, 28, 56, 20), line(20, 20, 28, 20), line(52, 20, 60, 20),
    figure('circle', { cx: 40, cy: 46, r: 13.5 }), ...holes,
    figure('path', { d: 'M8 16 C8 10 14 8 20 10 L22 14 H58 L60 10 C66 8 72 10 72 16 L68 20 H60 L57 18 H23 L20 20 H12 Z',
      class: 'receiver' }));
}

const COLUMNS = 10, ROWS = 6, STEP = 16;

// A crossbar switch seen from the front: hold bars stand, select bars lie. To close a crosspoint a select bar tips, then a
// hold bar turns and keeps the contacts where the two cross.
export class SwitchFigure {
  constructor() {
    const x = column => 14 + STEP * column, y = row => 12 + STEP * row;
    this.holds = Array.from({ length: COLUMNS }, (_, at) => line(x(at), 4, x(at), 4 + STEP * ROWS, 'hold'));
    this.selects = Array.from({ length: ROWS }, (_, at) => line(6, y(at), 8 + STEP * COLUMNS, y(at), 'select'));
    this.contacts = Array.from({ length: COLUMNS * ROWS }, (_, at) =>
      figure('circle', { cx: x(at % COLUMNS), cy: y(Math.floor(at / COLUMNS)), r: 2.2, class: 'contact' }));
    this.place = figure('svg', { viewBox: `0 0 ${20 + STEP * COLUMNS} ${8 + STEP * ROWS}`, class: 'switch-figure', role: 'img' },
      figure('rect', { x: 1, y: 1, width: 18 + STEP * COLUMNS, height: 6 + STEP * ROWS, rx: 3, class: 'plate' }),
      ...this.selects, ...this.holds, ...this.contacts);
  }

  // Shows that the crosspoint of a field and a value opens or closes: the field is a hold bar, the value a select bar.
  show({ act, items: [item] }) {
    const column = item.field % COLUMNS, row = (item.value - 1) % ROWS, isClosed = act === 'close';
    this.isClosed = isClosed;
    this.holds.forEach((it, at) => setFlag(it, 'data-on', at === column && isClosed));
    this.selects.forEach((it, at) => setFlag(it, 'data-on', at === row && isClosed));
    this.contacts.forEach((it, at) => setFlag(it, 'data-on', at === row * COLUMNS + column && isClosed));
  }

  // Says in words what it shows.
  tell() { this.place.setAttribute('aria-label', t(this.isClosed ? 'closeup.closes' : 'closeup.opens')); }
}

// A marker as one may imagine it: a bay full of relays.
export function bayFigure() {
  const relays = Array.from({ length: 60 }, (_, at) =>
    figure('rect', { x: 8 + 9 * (at % 6), y: 8 + 11 * Math.floor(at / 6), width: 7, height: 8, rx: 1 }));
  return figure('svg', { viewBox: '0 0 68 124', class: 'bay', 'aria-hidden': 'true' },
    figure('rect', { x: 3, y: 3, width: 62, height: 118, rx: 2 }), ...relays);
}
