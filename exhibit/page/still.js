// What never changes in the picture of an office: its frames, each with a bar for its number above its switches, and
// the idle links, faint.
import { t } from './texts.js';
import { figure } from './elements.js';
import { curve } from './layout.js';

export class Still {
  constructor(layout) {
    this.layout = layout;
    const frames = TEN.flatMap(frame => [...this.frame(frame, 0), ...this.frame(frame, 2)]);
    this.figures = [...this.captions(), this.junctors(), ...frames];
  }

  captions() {
    const { columns, top, font } = this.layout, size = Math.max(12, font * 0.85), style = `font-size:${size}px`;
    const isRoomy = columns[3] - columns[0] > 30 * size;
    const names = [['lines', 0], ...isRoomy ? [['junctors', 1]] : [], ['trunks', 2]];
    return names.map(([name, column]) => {
      const x = (columns[column] + columns[column + 1]) / 2;
      return figure('text', { x, y: top - 9, class: 'caption', style }, t(`picture.${name}`));
    });
  }

  // The junctors: of the ten from each line link frame to each trunk link frame two, or the picture would be too full.
  junctors() {
    const junctor = (l, t, channel) => curve(...this.layout.link('JU', [l, t, channel]));
    const d = TEN.flatMap(l => TEN.flatMap(t => [0, 5].map(channel => junctor(l, t, channel))));
    return figure('path', { d: d.join(''), class: 'weave' });
  }

  // A frame with its two columns of ten switches.
  frame(frame, column) {
    const { columns, frameWidth: width, frameHeight: height, bar } = this.layout, x = columns[column];
    const name = `${column ? 'trunk' : 'line'} link frame:${frame}`;
    const y = this.layout.frameTop(frame), style = `font-size:${Math.max(13, bar * 0.82)}px`;
    return [
      figure('rect', { x, y, width, height, rx: 3, class: 'frame', 'data-frame': name }),
      figure('rect', { x, y, width, height: bar, rx: 3, class: 'bar', 'data-frame': name }),
      figure('text', { x: x + bar * 0.55, y: y + bar / 2, class: 'number', style }, frame),
      this.links(frame, column),
      ...TEN.flatMap(number => [column, column + 1].map(end => this.switch(frame, end, number))),
    ];
  }

  switch(frame, column, number) {
    const { columns, row } = this.layout;
    const at = { cx: columns[column], cy: this.layout.y(frame, number) };
    return figure('circle', { ...at, r: Math.max(0.3, Math.min(2, row * 0.3)), class: 'switch' });
  }

  // The hundred links of a frame between its two kinds of switches.
  links(frame, column) {
    const { columns } = this.layout, y = TEN.map(number => this.layout.y(frame, number));
    const link = (one, other) => `M${columns[column]} ${one}L${columns[column + 1]} ${other}`;
    return figure('path', { d: y.flatMap(one => y.map(other => link(one, other))).join(''), class: 'weave fan' });
  }
}

export const TEN = [...Array(10).keys()];
