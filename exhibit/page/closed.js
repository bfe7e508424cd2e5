// What is closed in an office: its links, with their classes, and the figures of lines, places and crosspoints.
import { figure } from './elements.js';
import { crosspointsOf, KINDS, lineText, pathParts } from './office.js';
import { markerColour } from './layout.js';

export class Closed {
  constructor(office, layout, labels) {
    Object.assign(this, { office, layout, labels, figures: [], lit: new Map() });
    this.owners = ownersOf(office);
    const closes = office.lastSteps.filter(it => it.act === 'close');
    this.fresh = new Set(closes.flatMap(it => it.items.map(item => `${it.word},${item.field}`)));
    for (const { word, object, items } of office.shown) {
      if (object.kind === 'group') continue;
      for (const item of items) this.crosspoint(word, object, item);
    }
    this.arcs();
    this.links = [...this.lit].map(([link, owner]) => ({ link, ...owner }));
  }

  crosspoint(word, { kind, frame, number }, { field, value }) {
    const owner = this.owners.get(`${word},${field}`) ?? { kinds: 'call' };
    const kinds = this.fresh.has(`${word},${field}`) ? `${owner.kinds} fresh` : owner.kinds;
    const lit = link => this.lit.set(link, { ...owner, kinds });
    if (kind === KINDS.lineSwitch) {
      this.end(this.layout.line(frame, number, value - 1), this.layout.at(kind, frame, number), owner);
      this.labels.line(this.office, lineText(frame, number, value - 1), owner.kinds);
      lit(`LL${frame}${number}${field}`);
    } else if (kind === KINDS.lineJunctor) {
      lit(`LL${frame}${value - 1}${number}`);
      lit(`JU${frame}${field}${number}`);
    } else if (kind === KINDS.trunkJunctor) {
      lit(`JU${field}${frame}${number}`);
      lit(`TL${frame}${value - 1}${number}`);
    } else {
      this.end(this.layout.at(kind, frame, number), this.layout.place(frame, number, value - 1), owner);
      this.labels.place(this.office, `${frame}${number}${value - 1}`, owner.kinds);
      lit(`TL${frame}${number}${field}`);
    }
    this.dot(this.layout.at(kind, frame, number), kinds, owner.colour);
  }

  // The stroke of a line to its switch, or of a trunk switch to its place.
  end(from, to, { kinds, colour }) {
    const style = colour ? `stroke:${colour}` : null;
    this.figures.push(figure('path', { d: `M${from.x} ${from.y}L${to.x} ${to.y}`, class: `link ${kinds}`, style }));
  }

  dot({ x, y }, kinds, colour) {
    const style = colour ? `fill:${colour}` : null, r = Math.max(2.5, Math.min(4, this.layout.row * 0.5));
    this.figures.push(figure('circle', { cx: x, cy: y, r, class: `dot ${kinds}`, style }));
  }

  // The two paths of a call inside the office, joined at their trunk.
  arcs() {
    const whole = new Map(this.office.paths.map(path => [path.place, path]));
    for (const { members } of this.office.plan.groups) {
      for (const [calling, called] of members) {
        const from = whole.get(calling), to = whole.get(called);
        if (!from || !to) continue;
        const one = this.layout.place(from.t, from.u, from.a), other = this.layout.place(to.t, to.u, to.a);
        const far = Math.max(one.x, other.x) + this.layout.arc, bend = one.y === other.y ? 9 : 0;
        const d = `M${one.x} ${one.y}C${far} ${one.y - bend} ${far} ${other.y + bend} ${other.x} ${other.y}`;
        this.figures.push(figure('path', { d, class: 'link call' }));
      }
    }
  }
}

// Who owns each closed crosspoint: a whole path by its kind, or the marker that works at it by its colour.
function ownersOf(office) {
  const owners = new Map();
  const own = (path, owner) => crosspointsOf(path).forEach(key => owners.set(key, owner));
  for (const path of office.paths) own(path, { kinds: office.kindOf(path.place) === 'register' ? 'register' : 'call' });
  for (const marker of office.markers) {
    for (const { path, closed } of marker.paths) {
      if (closed < 4) own(pathParts(path), { kinds: 'partial', colour: markerColour(marker.marker) });
    }
  }
  return owners;
}
