// What is wrong in the picture of an office: the links out of order that the last turn met, and links that carry two
// calls. The names of those that it met stand there while markers are few.
import { figure } from './elements.js';
import { linkParts, MANY_MARKERS, pathParts } from './office.js';
import { linkFigure, pointAt, spread } from './layout.js';

export class Trouble {
  constructor(office, shared, layout) {
    this.layout = layout;
    const last = office.records[office.records.length - 1], cards = last?.cards ?? [];
    const met = cards.map(it => it.link), twice = shared.map(it => it.link), trial = trialOf(office);
    this.figures = [
      ...trial ? this.trial(trial.line, met) : [],
      ...met.map(link => linkFigure(layout, link, 'met')),
      ...twice.map(link => linkFigure(layout, link, 'alarm')),
    ];
    this.names = [
      ...office.markers.length > MANY_MARKERS ? [] : this.namesOf(met),
      ...twice.map(link => this.plate({ ...this.pointOf(link, 0.5), text: '×2', kind: 'alarm' })),
    ];
  }

  // The point of a link at this part of its way.
  pointOf(link, part) {
    const { kind, digits } = linkParts(link);
    return pointAt(kind, this.layout.link(kind, digits), part);
  }

  // The names of links, moved apart where they would overlap.
  namesOf(links) {
    const { top, height } = this.layout;
    const byHeight = [...links].sort((one, other) => this.pointOf(one, 0.5).y - this.pointOf(other, 0.5).y);
    const all = byHeight.map((link, at) => ({ text: link, kind: 'met', ...this.beside(link, at, links.length) }));
    const columns = [...new Set(all.map(it => it.x))];
    return columns.flatMap(x => spread(all.filter(it => it.x === x), this.plateHeight + 3, top, height))
      .map(name => this.plate(name));
  }

  // The place of the name of a link, one of so many from above: beside its inner end if the link is within a frame.
  beside(link, at, count) {
    const { kind } = linkParts(link), isLeft = kind === 'LL';
    if (kind === 'JU') return this.besideJunctor(link, at, count);
    const { x, y } = this.pointOf(link, isLeft ? 1 : 0);
    return { x: x + (isLeft ? 1 : -1) * (this.plateWidth(link) / 2 + 8), y };
  }

  // Above the junctors of the upper half, below the others, so far that no plate touches its junctor.
  besideJunctor(link, at, count) {
    const part = count === 1 ? 0.5 : at % 2 ? 0.64 : 0.36, side = at < count / 2 ? -1 : 1;
    const [before, { x, y }, after] = [-0.1, 0, 0.1].map(far => this.pointOf(link, part + far));
    const slope = (after.y - before.y) / (after.x - before.x), steep = Math.abs(slope);
    const width = this.plateWidth(link), height = this.plateHeight;
    if (steep < 1) return { x, y: y + side * ((steep * width + height) / 2 + 5) };
    return { x: x - side * Math.sign(slope) * ((width + height / steep) / 2 + 5), y };
  }

  // What a dial tone job tried before it met these links: its line, and the links of the channels that lead to them.
  trial(line, met) {
    const { l, s, x } = pathParts(`${line}-0-000`), point = this.layout.line(l, s, x);
    const stub = figure('path', { d: `M${point.x} ${point.y}H${this.layout.columns[0]}`, class: 'link tried' });
    const before = met.flatMap(link => linksBefore(link, l, s));
    return [stub, ...before.map(link => linkFigure(this.layout, link, 'tried'))];
  }

  plateWidth(text) { return this.layout.font * (0.68 * text.length + 0.7); }

  get plateHeight() { return this.layout.font + 5; }

  // A name on a plate: as a trouble card, if the last turn met the link.
  plate({ x, y, text, kind }) {
    const width = this.plateWidth(text), height = this.plateHeight, left = x - width / 2, top = y - height / 2;
    const corner = kind === 'met' ? height * 0.35 : 0;
    const d = `M${left + corner} ${top}h${width - corner}v${height}h${-width}v${corner - height}z`;
    return figure('g', { class: `name ${kind}` }, figure('path', { d }), figure('text', { x, y }, text));
  }
}

// The job of the last turn if it was for dial tone and met a link out of order. Of a call's two paths a card doesn't
// say which it was.
export function trialOf({ records }) {
  const last = records[records.length - 1];
  return last?.cards.length && last.job.kind === 'D' ? last.job : null;
}

// The links of a channel that lead from a line switch to this link.
function linksBefore(link, l, s) {
  const { kind, digits: [t, , channel] } = linkParts(link), line = `LL${l}${s}${channel}`;
  if (kind === 'LL') return [];
  return kind === 'JU' ? [line] : [line, `JU${l}${t}${channel}`];
}
