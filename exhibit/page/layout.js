// Where the picture of an office has its parts, in CSS pixels, for a picture of this width and height. The
// line link frames stand at the left, the trunk link frames at the right, one above the other.
import { figure } from './elements.js';
import { KINDS, linkParts } from './office.js';

export class Layout {
  constructor(width, height) {
    this.width = width;
    this.height = height;
    this.narrow = width < 620;
    this.font = this.narrow ? 12 : width > 1000 ? 20 : height > 700 ? 17 : 13;
    this.lineMargin = this.font * (this.narrow ? 5.2 : 8.6);
    this.placeMargin = this.font * (this.narrow ? 7.2 : 10.8);
    const inner = width - this.lineMargin - this.placeMargin;
    this.frameWidth = Math.round(inner * (this.narrow ? 0.3 : 0.25));
    this.columns = [
      this.lineMargin,
      this.lineMargin + this.frameWidth,
      width - this.placeMargin - this.frameWidth,
      width - this.placeMargin,
    ];
    this.top = Math.round(this.font * 1.7);
    this.pitch = (height - this.top - 4) / 10;
    this.frameHeight = this.pitch - Math.max(3, this.pitch * 0.07);
    // Above the switches of each frame, for its number and the markers that hold or request it.
    this.bar = Math.min(28, Math.max(18, this.frameHeight * 0.37));
    this.row = (this.frameHeight - this.bar - 4) / 10;
    this.arc = this.placeMargin * 0.1;
    this.stroke = Math.max(1.5, Math.min(2.6, this.row * 0.42));
  }

  frameTop(frame) { return this.top + this.pitch * frame; }

  // The middle of the row of a switch in its frame.
  y(frame, number) { return this.frameTop(frame) + this.bar + 2 + this.row * (number + 0.5); }

  // The point of a line, by its place on its switch, and of a trunk place, by its appearance.
  line(frame, number, place) {
    return { x: this.lineMargin * (0.82 + place / 29 * 0.12), y: this.y(frame, number) };
  }

  place(frame, number, appearance) {
    return { x: this.columns[3] + this.placeMargin * (0.05 + appearance / 9 * 0.12), y: this.y(frame, number) };
  }

  // The point of a switch, by its kind.
  at(kind, frame, number) {
    return { x: this.columns[Object.values(KINDS).indexOf(kind)], y: this.y(frame, number) };
  }

  // The two ends of a link.
  link(kind, [first, second, channel]) {
    const { lineSwitch, lineJunctor, trunkJunctor, trunkSwitch } = KINDS;
    if (kind === 'LL') return [this.at(lineSwitch, first, second), this.at(lineJunctor, first, channel)];
    if (kind === 'JU') return [this.at(lineJunctor, first, channel), this.at(trunkJunctor, second, channel)];
    return [this.at(trunkJunctor, first, channel), this.at(trunkSwitch, first, second)];
  }
}

// A curve between two points that leaves both level.
export function curve(from, to) {
  const middle = (from.x + to.x) / 2;
  return `M${from.x} ${from.y}C${middle} ${from.y} ${middle} ${to.y} ${to.x} ${to.y}`;
}

// A link in the picture, a junctor as a curve, with its name as its title unless it has another.
export function linkFigure(layout, link, kinds, { title = link, colour } = {}) {
  const { kind, digits } = linkParts(link), [from, to] = layout.link(kind, digits);
  const d = kind === 'JU' ? curve(from, to) : `M${from.x} ${from.y}L${to.x} ${to.y}`;
  const style = colour ? `stroke:${colour}` : null;
  return figure('path', { d, class: `link ${kinds}`, style, 'data-link': link }, figure('title', {}, title));
}

// The point of a curve, or of a straight line, at this part of its way: 0 at its beginning, 1 at its end.
export function pointAt(kind, [from, to], part) {
  const fall = kind === 'JU' ? part * part * (3 - 2 * part) : part;
  const across = kind === 'JU' ? 1.5 * part * (1 - part) + part ** 3 : part;
  return { x: from.x + (to.x - from.x) * across, y: from.y + (to.y - from.y) * fall };
}

// Moves labels apart that would overlap: each has its wanted `y`, and none leaves the range.
export function spread(labels, height, top, bottom) {
  labels.sort((one, other) => one.y - other.y);
  let least = top + height / 2;
  for (const label of labels) {
    label.y = Math.max(label.y, least);
    least = label.y + height;
  }
  let most = bottom - height / 2;
  for (const label of [...labels].reverse()) {
    label.y = Math.min(label.y, most);
    most = label.y - height;
  }
  return labels;
}

// The colour of a marker. Neighbouring numbers are far apart on the circle of colours, without those of paths and of
// links out of order: the hues are from 75 to 185, and from 235 to 365.
export function markerColour(number) {
  const hue = (10 + number * 148.328) % 240;
  return `oklch(0.82 0.14 ${(hue < 110 ? 75 : 125) + hue})`;
}
