// The two ways to dial: a keypad and a rotary dial. Each calls `dialled(digit)`.
//
// On the rotary dial a finger takes a hole and turns it to the stop. The wheel springs back at ten pulses a second, and
// the digit counts when it has come to rest. A tap or a key turns it by itself.
import { button, element, setFlag, stillWanted } from './elements.js';

const LETTERS = ['', '', 'ABC', 'DEF', 'GHI', 'JKL', 'MNO', 'PRS', 'TUV', 'WXY'];
const HOLES = [1, 2, 3, 4, 5, 6, 7, 8, 9, 0];

// Degrees, clockwise from the right: where the first hole is, how far the next one is from it, and where the stop is.
const FIRST_HOLE = -30, BETWEEN = -30, STOP = 22;
const PULSES_A_SECOND = 10;
// A hole that was turned at least so far, as a part of its way to the stop, counts as dialled.
const ENOUGH = 0.9;

export function keypad(dialled) {
  const keys = HOLES.map(digit =>
    button(element('b', {}, digit), () => dialled(String(digit)), { 'data-digit': digit, 'aria-label': digit }));
  for (const key of keys) key.append(element('small', { 'aria-hidden': 'true' }, LETTERS[key.dataset.digit]));
  return element('div', { class: 'keypad', role: 'group', 'data-t-label': 'keypad' }, ...keys);
}

const angleOf = place => FIRST_HOLE + BETWEEN * place;

// How far a hole has to be turned to reach the stop.
export const wayOf = place => STOP - angleOf(place);

// How many pulses a digit gives: itself, and ten for 0.
export const pulsesOf = digit => digit === 0 ? 10 : digit;

// How far a hand at this angle has turned the hole that it took at another, between none and its whole way. A turn to
// the left counts as none.
export function turnedBy(from, to, way) {
  const far = (((to - from) % 360) + 360) % 360;
  return far > (way + 360) / 2 ? 0 : Math.min(far, way);
}

export class Rotary {
  // `pulse()` is called for each pulse while the wheel springs back.
  constructor(dialled, pulse = () => {}) {
    Object.assign(this, { dialled, pulse, pointer: null, isBusy: false, waiting: [] });
    this.wheel = element('div', { class: 'wheel', 'aria-hidden': 'true' });
    this.keys = HOLES.map((digit, place) => this.hole(digit, place));
    const parts = ['stop', 'hub'].map(name => element('div', { class: name, 'aria-hidden': 'true' }));
    this.place = element('div', { class: 'rotary', role: 'group', 'data-t-label': 'rotary' }, ...this.keys, this.wheel,
      ...parts);
  }

  // A digit stands still, and the wheel with its holes turns over it.
  hole(digit, place) {
    const angle = angleOf(place) * Math.PI / 180;
    const style = `left:${(50 + 39 * Math.cos(angle)).toFixed(2)}%;top:${(50 + 39 * Math.sin(angle)).toFixed(2)}%`;
    this.wheel.append(element('span', { style }));
    const byKey = event => { if (!event.detail) this.tapped(digit, place); };
    const key = button(digit, byKey, { 'data-digit': digit, style });
    key.addEventListener('pointerdown', event => this.taken(event, digit, place));
    key.addEventListener('pointermove', event => this.moved(event));
    for (const name of ['pointerup', 'pointercancel']) key.addEventListener(name, event => this.left(event));
    return key;
  }

  // The angle of a pointer around the middle of the dial.
  angleAt({ clientX, clientY }) {
    const { left, top, width, height } = this.place.getBoundingClientRect();
    return Math.atan2(clientY - top - height / 2, clientX - left - width / 2) * 180 / Math.PI;
  }

  taken(event, digit, place) {
    if (this.pointer !== null || event.currentTarget.disabled) return;
    event.currentTarget.setPointerCapture?.(event.pointerId);
    Object.assign(this, { pointer: event.pointerId, digit, hole: place, way: wayOf(place), from: this.angleAt(event), turned: 0 });
  }

  moved(event) {
    if (event.pointerId !== this.pointer) return;
    this.turned = turnedBy(this.from, this.angleAt(event), this.way);
    if (!this.isBusy) this.turnTo(this.turned);
  }

  // A hand that hasn't turned the dial has tapped it, and so has one that turned it while it came back.
  left(event) {
    if (event.pointerId !== this.pointer) return;
    this.pointer = null;
    const isUp = event.type === 'pointerup', isTurned = this.turned >= ENOUGH * this.way;
    if (isUp && (this.turned < 5 || (this.isBusy && isTurned))) return this.tapped(this.digit, this.hole);
    if (!this.isBusy) this.springBack(this.turned, isUp && isTurned ? this.digit : null);
  }

  // Turns the dial by itself, after what it has still to turn.
  tapped(digit, place) {
    if (this.isBusy) return this.waiting.push({ digit, place });
    this.keepBusy(true);
    return this.animate(0, wayOf(place), 60 + wayOf(place)).then(() => this.springBack(wayOf(place), digit));
  }

  // Lets the wheel come back. A digit counts when it rests.
  async springBack(from, digit) {
    this.keepBusy(true);
    const pulses = digit === null ? Math.round(from / 30) : pulsesOf(digit), time = 1000 * pulses / PULSES_A_SECOND;
    const timers = digit === null ? [] : Array.from({ length: pulses }, (_, at) =>
      setTimeout(this.pulse, (at + 1) * 1000 / PULSES_A_SECOND));
    await this.animate(from, 0, Math.max(120, time));
    timers.forEach(clearTimeout);
    this.keepBusy(false);
    if (digit !== null) this.dialled(String(digit));
    const next = this.waiting.shift();
    if (next) this.tapped(next.digit, next.place);
  }

  // Whether the wheel turns by itself; the page shows it, too.
  keepBusy(isBusy) {
    this.isBusy = isBusy;
    setFlag(this.place, 'data-busy', isBusy);
  }

  turnTo(degrees) { this.wheel.style.transform = degrees ? `rotate(${degrees}deg)` : ''; }

  async animate(from, to, duration) {
    this.turnTo(0);
    if (stillWanted.matches || !this.wheel.animate) return;
    const frames = [from, to].map(degrees => ({ transform: `rotate(${degrees}deg)` }));
    await this.wheel.animate(frames, { duration, easing: 'linear' }).finished.catch(() => {});
  }

  set isEnabled(isEnabled) { for (const key of this.keys) key.disabled = !isEnabled; }
}
