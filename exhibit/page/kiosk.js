// Kiosk mode, by the address `#kiosk` or, with the seconds of rest after which films begin to play, `#kiosk=60`: large
// targets, nothing to open or save, no way out of the page. Before the films play everything is as at the beginning
// again, so that nobody meets what another visitor left. A touch or a key ends the films, and lifts a receiver.
import { $, pause } from './elements.js';
import { phoneOf } from './telephones.js';

const KIOSK_SECONDS = 90;
// How often a rest is begun anew while a receiver is lifted: a call isn't cut off, but nobody keeps the exhibit for ever.
const MOST_PATIENCE = 1;
// What shows that somebody is there. A pointer that only rests on the page doesn't.
const SIGNS = ['pointerdown', 'pointermove', 'wheel', 'touchmove', 'keydown', 'input'];

// The seconds of rest that an address asks for, or null if it isn't that of a kiosk.
export function restIn(hash) {
  const [found, seconds] = /[#&]kiosk(?:=(\d{1,4}))?(?=&|$)/.exec(hash) ?? [];
  return found === undefined ? null : Math.max(1, Number(seconds ?? KIOSK_SECONDS));
}

export class Kiosk {
  constructor(page) {
    this.page = page;
    const rest = restIn(location.hash);
    page.isKiosk = rest !== null;
    if (!page.isKiosk) return;
    this.wait = 1000 * rest;
    this.films = null;
    document.body.classList.add('kiosk');
    document.addEventListener('contextmenu', event => event.preventDefault());
    document.addEventListener('dragstart', event => event.preventDefault());
    for (const name of SIGNS) document.addEventListener(name, event => this.noticed(event), true);
    for (const name of ['pointerup', 'click']) document.addEventListener(name, event => this.swallow(event), true);
    this.quietUntil = 0;
    this.restart();
  }

  // Begins a rest.
  restart(patience = MOST_PATIENCE) {
    clearTimeout(this.timer);
    this.timer = setTimeout(() => this.rested(patience), this.wait);
  }

  rested(patience) {
    const { day } = this.page.stages, { visitor } = day.session;
    const { stage } = this.page, isTalking = stage === day && day.lines.some(line => phoneOf(visitor, line).lifted);
    // A film that somebody has chosen is watched to its end.
    if (stage.isPlaying && stage.auto && !stage.isOver) return this.restart(patience);
    if ((isTalking || (stage !== day && stage.auto)) && patience > 0) return this.restart(patience - 1);
    return this.attract();
  }

  noticed(event) {
    if (event.type === 'pointermove' && !event.movementX && !event.movementY) return;
    this.restart();
    if (!this.films || !['pointerdown', 'keydown'].includes(event.type)) return;
    event.preventDefault();
    event.stopPropagation();
    this.begin();
  }

  // What comes of the touch that ended the films doesn't reach what has appeared under it.
  swallow(event) {
    if (performance.now() > this.quietUntil) return;
    event.preventDefault();
    event.stopPropagation();
  }

  // A new visitor: everything is as at the beginning, and a receiver is lifted.
  async begin() {
    this.films = null;
    this.quietUntil = performance.now() + 700;
    $('attract').hidden = true;
    document.body.classList.remove('attracting');
    await this.page.reset();
    const { day } = this.page.stages;
    await day.lift(day.chosen);
  }

  // Plays one film after another, until a touch. Films that a touch has ended may still wait for something when these
  // begin; they are others, and so don't go on.
  async attract() {
    const films = this.films = {}, goOn = () => this.films === films;
    await this.page.reset();
    if (!goOn()) return;
    this.page.sound?.mute(true);
    $('attract').hidden = false;
    document.body.classList.add('attracting');
    const { film } = this.page.stages;
    await this.page.choose('film');
    film.speed = 7;
    for (let at = 0; goOn(); at++) {
      await film.play(film.films[at % FILMS.length]);
      while (goOn() && !film.isOver) await pause(200);
      for (let rest = 0; goOn() && rest < 15; rest++) await pause(200);
    }
  }
}
