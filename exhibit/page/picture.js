// The picture of an office: its frames, what is closed in them, and who holds what.
import { t, texts } from './texts.js';
import { figure } from './elements.js';
import { MANY_MARKERS } from './office.js';
import { Layout, linkFigure, markerColour } from './layout.js';
import { Still } from './still.js';
import { Closed } from './closed.js';
import { Labels } from './labels.js';
import { trialOf, Trouble } from './trouble.js';
import { Holders } from './holders.js';
import { objectWords } from './words.js';

export class Picture {
  constructor(place) {
    this.place = place;
    this.size = { width: 0, height: 0 };
    new ResizeObserver(([{ contentRect: { width, height } }]) => {
      // In units that grow with the window, so that all is drawn as on a window of 1920 by 1080.
      this.unit = Math.max(1, parseFloat(getComputedStyle(document.documentElement).fontSize) / 18);
      this.size = { width: Math.floor(width / this.unit), height: Math.floor(height / this.unit) };
      this.show();
    }).observe(place);
  }

  // Shows an office. `lines` are lines that get a label even while nothing is closed for them, `shared` links that
  // carry more than one call.
  show(office = this.office, lines = this.lines ?? [], shared = this.shared ?? []) {
    Object.assign(this, { office, lines, shared });
    const { width, height } = this.size;
    if (!office || width < 200 || height < 200) return;
    const key = [this.unit, width, height, texts.language, office.plan.faults].join();
    if (this.key !== key) this.drawOffice(width, height, key);
    this.drawUse();
    this.place.setAttribute('aria-label', this.summary());
  }

  // What never changes, and places for what does. Links out of order stand before the paths, and behind all else.
  drawOffice(width, height, key) {
    this.key = key;
    this.layout = new Layout(width, height);
    const still = new Still(this.layout);
    const fault = link => linkFigure(this.layout, link, 'fault', { title: t('picture.faulty', { link }) });
    const faults = this.office.plan.faults.map(fault);
    this.paths = figure('g', {});
    this.use = figure('g', {});
    const style = `font-size:${this.layout.font}px;--stroke:${this.layout.stroke}px`;
    const size = { width: width * this.unit, height: height * this.unit, viewBox: `0 0 ${width} ${height}`, style };
    const all = [...still.figures, this.paths, ...faults, this.use];
    this.place.replaceChildren(figure('svg', { ...size, 'aria-hidden': 'true' }, ...all));
  }

  drawUse() {
    const labels = new Labels(this.layout);
    const shown = new Closed(this.office, this.layout, labels);
    for (const line of this.lines) labels.line(this.office, line);
    const { markers } = this.office, working = markers.length > MANY_MARKERS ? [] : markers.filter(it => it.job);
    const trial = trialOf(this.office), lines = working.map(it => it.job.line);
    for (const line of trial ? [...lines, trial.line] : lines) labels.line(this.office, line, 'partial');
    const links = shown.links.map(it => linkFigure(this.layout, it.link, it.kinds, it));
    const { figures, names } = new Trouble(this.office, this.shared, this.layout);
    const { edges, badges } = new Holders(this.office, this.layout);
    this.paths.replaceChildren(...edges, ...links);
    this.use.replaceChildren(
      ...figures, ...shown.figures, ...this.steps(), ...badges, ...names, ...labels.figures());
  }

  // A square around the switch that the next step of each marker tests, closes or opens, within its frame.
  steps() {
    const { layout } = this, half = Math.max(5.5, layout.row * 0.9);
    return this.office.markers.filter(it => it.next?.object?.frame !== undefined).flatMap(({ marker, next }) => {
      const { kind, frame, number } = next.object, { x, y } = layout.at(kind, frame, number);
      const most = layout.frameTop(frame) + layout.frameHeight - 2 * half;
      const top = Math.min(Math.max(y - half, layout.frameTop(frame) + layout.bar), most);
      const colour = markerColour(marker);
      const square = { x: x - half, y: top, width: 2 * half, height: 2 * half };
      return [figure('rect', { ...square, class: 'next', style: `stroke:${colour}` }),
        figure('circle', { cx: x, cy: y, r: half * 0.45, style: `fill:${colour}` })];
    });
  }

  summary() {
    const { office } = this, most = 12;
    const path = it => t('picture.path', { line: office.lineName(it.line), place: office.placeName(it.place) });
    const hold = it => t('picture.held', { marker: it.holder, connector: objectWords(it.connector, this.office) });
    const held = office.connectors.filter(it => it.holder !== null).slice(0, most).map(hold);
    const paths = office.paths.slice(0, most).map(path);
    return [t('picture.summary', { count: office.paths.length }), ...paths, ...held].join('. ');
  }
}
