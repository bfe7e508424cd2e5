// Who holds the frames and who requests them: an edge in the colour of the marker that holds a frame's connector, and
// in the frame's bar a badge for it and one for each marker that requests the connector.
import { figure } from './elements.js';
import { markerColour } from './layout.js';
import { LETTER } from './labels.js';

export class Holders {
  constructor(office, layout) {
    this.layout = layout;
    const height = layout.bar - 3, font = Math.max(11, height * 0.62), last = `${office.markers.length - 1}`;
    // All are as wide as that of the marker with the longest number.
    this.badge = { height, font, width: Math.max(height, font * LETTER * last.length + 6) };
    const frames = office.connectors.filter(it => it.connector.kind !== 'group').map(it => this.frame(it));
    this.edges = frames.filter(it => it.holder !== null).map(it => this.edge(it));
    this.badges = frames.flatMap(it => this.badgesIn(it));
  }

  // A connector with the left upper corner of its frame.
  frame({ connector: { kind, number }, holder, requests }) {
    const column = kind === 'line link frame' ? 0 : 2;
    return { holder, requests, x: this.layout.columns[column], y: this.layout.frameTop(number) };
  }

  edge({ x, y, holder }) {
    const { frameWidth: width, frameHeight: height } = this.layout;
    return figure('rect', { x, y, width, height, rx: 3, class: 'held', style: `stroke:${markerColour(holder)}` });
  }

  // As many badges as there is room for after the frame's number. Where that isn't enough, the last place says how many
  // more there are.
  badgesIn({ x, y, holder, requests }) {
    const { frameWidth, bar } = this.layout, start = bar * 1.1;
    const holders = holder === null ? [] : [{ marker: holder, kind: 'holder' }];
    const all = [...holders, ...requests.map(marker => ({ marker, kind: 'asker' }))];
    // Two badges always have room, if need be one over the other's edge.
    const step = Math.min(this.badge.width + 4, all.length < 3 ? (frameWidth - start) / 2 : Infinity);
    const most = Math.max(1, Math.floor((frameWidth - start) / step + 0.001));
    const shown = all.length > most ? all.slice(0, most - 1) : all, rest = all.length - shown.length;
    const at = place => ({ x: x + start + step * (place + 0.5), y: y + bar / 2 });
    const more = rest ? [figure('text', { ...at(shown.length), class: 'more' }, `+${rest}`)] : [];
    return [...shown.map((it, place) => this.badgeOf(it, at(place))), ...more];
  }

  badgeOf({ marker, kind }, { x, y }) {
    const { width, height, font } = this.badge, colour = markerColour(marker), isFull = kind === 'holder';
    const outline = { x: x - width / 2, y: y - height / 2, width, height, rx: height / 2 };
    const letters = `font-size:${font}px`;
    return figure('g', { class: `badge ${kind}` },
      figure('rect', { ...outline, style: `${isFull ? `fill:${colour};` : ''}stroke:${colour}` }),
      figure('text', { x, y, style: isFull ? letters : `${letters};fill:${colour}` }, marker));
  }
}
