// The labels of lines and trunk places, each once, beside their own frame. Where a frame has more of them than fit one
// below the other, neighbours share a row; where that is not enough either, calls keep their labels rather than
// registers, those rather than idle lines, and the last row says how many more there are.
import { figure } from './elements.js';
import { pathParts } from './office.js';
import { spread } from './layout.js';
import { TEN } from './still.js';

const RANKS = ['call', 'partial', 'register', 'idle'];

// How wide a letter is, as a part of its height.
export const LETTER = 0.58;
const MOST_IN_A_ROW = 3;

export class Labels {
  constructor(layout) {
    Object.assign(this, { layout, lines: new Map(), places: new Map() });
  }

  // The label of a line with what uses it, one of RANKS. One that is in use has a stroke that leads to its place.
  line(office, line, use = 'idle') {
    const { l, s, x } = pathParts(`${line}-0-000`), point = this.layout.line(l, s, x);
    this.keep(this.lines, line, { name: office.lineName(line), frame: l, use }, point);
  }

  // The two places of a trunk for calls inside the office have one label, if they are on one frame.
  place(office, place, use) {
    const [t, u, a] = [...place].map(Number), name = office.placeName(place), { x, y } = this.layout.place(t, u, a);
    const end = office.kindOf(place) === 'intra' && use === 'call' ? x + 0.75 * this.layout.arc : x;
    this.keep(this.places, `${t} ${name}`, { name, frame: t, use }, { x: end, y });
  }

  // Of two uses of one label the first one in RANKS counts.
  keep(labels, key, label, point) {
    const kept = labels.get(key), points = [...kept?.points ?? [], point], y = mean(points.map(it => it.y));
    const rank = RANKS.indexOf(label.use), first = kept && kept.rank <= rank ? kept : { ...label, rank };
    labels.set(key, { ...first, points, y });
  }

  figures() {
    const { lineMargin, placeMargin, columns } = this.layout;
    return [
      ...this.column(this.lines, lineMargin * 0.72, 'end', lineMargin * 0.72, columns[0]),
      ...this.column(this.places, columns[3] + placeMargin * 0.3, 'start', placeMargin * 0.7, columns[3]),
    ];
  }

  // The labels that begin or end at `x`, in rows of this width, with strokes to their places and on to their frame.
  column(labels, x, anchor, width, frameEdge) {
    const most = Math.floor(width / (this.layout.font * LETTER)), away = anchor === 'end' ? 3 : -3;
    const toFrame = use => use === 'partial' ? `H${frameEdge}` : '';
    const leader = (point, y, use) => `M${x + away} ${y}L${point.x} ${point.y}${toFrame(use)}`;
    return TEN.flatMap(frame => this.rowsOf(frame, [...labels.values()].filter(it => it.frame === frame), most))
      .flatMap(({ text, y, shown, use }) => [
        ...shown.filter(it => it.use !== 'idle').flatMap(({ points, use }) =>
          points.map(point => figure('path', { d: leader(point, y, use), class: 'leader' }))),
        figure('text', { x, y, class: `label ${anchor} ${use}` }, text),
      ]);
  }

  // The rows of labels beside a frame, of so many letters at most, moved apart where they would overlap.
  rowsOf(frame, labels, letters) {
    const { font, pitch } = this.layout, step = font + 0.5, top = this.layout.frameTop(frame) - 1;
    const most = Math.max(1, Math.floor((pitch - 1) / step));
    const byRank = [...labels].sort((one, other) => one.rank - other.rank);
    return spread(fittingRows(byRank, most, letters), step, top, top + pitch - 1);
  }
}

// Labels in `most` rows or fewer. Where not all fit, the last row says how many are left out.
function fittingRows(byRank, most, letters) {
  const room = MOST_IN_A_ROW * most, all = byRank.length <= room ? rowsFor(byRank, most, letters) : null;
  if (all && all.length <= most) return all;
  let count = Math.min(byRank.length, room), rows;
  do rows = rowsFor(byRank.slice(0, --count), most - 1, letters); while (rows.length >= most);
  const y = rows.length ? rows[rows.length - 1].y : byRank[0].y;
  return [...rows, { text: `+${byRank.length - count}`, shown: [], use: 'rest', y }];
}

// Labels in rows by their heights, as few to a row as needed so that there are `most` rows or fewer. There are more
// where no two neighbours fit into a row.
function rowsFor(shown, most, letters) {
  const rows = [...shown].sort((one, other) => one.y - other.y).map(it => labelRow([it]));
  while (rows.length > most) {
    const joined = rows.slice(1).map((row, at) => labelRow([...rows[at].shown, ...row.shown]));
    const least = Math.min(...joined.map(it => it.text.length));
    if (least > letters) break;
    const at = joined.findIndex(it => it.text.length === least);
    rows.splice(at, 2, joined[at]);
  }
  return rows;
}

// Labels in one row, at their middle. Members of one group have its name once.
function labelRow(shown) {
  const text = shown.map(({ name }, at) => {
    const [group, member] = name.split(' ');
    return at && member && group === shown[at - 1].name.split(' ')[0] ? member : name;
  }).join(', ');
  return { text, shown, use: shown.every(it => it.use === 'idle') ? 'idle' : 'busy', y: mean(shown.map(it => it.y)) };
}

const mean = numbers => numbers.reduce((sum, it) => sum + it, 0) / numbers.length;
