// What is heard: the tones of a lifted receiver, the bell of a telephone that rings, the pulses of a dial, and a relay's
// click for each step. All is made by WebAudio. It begins with the first touch, since browsers want that; by the address,
// `#volume=40` makes it quieter, and `#volume=0` silent.
//
// The tones are those before the 1960s as they are generally told, not checked against an original: dial tone is 600 Hz
// modulated by 120 Hz, busy tone is the same, interrupted once a second, and audible ringing is 420 Hz modulated by 40 Hz.

// Each tone: its pitch, what modulates it, and for how many seconds it sounds and is silent.
export const TONES = {
  dial: { pitch: 600, modulation: 120 },
  busy: { pitch: 600, modulation: 120, on: 0.5, off: 0.5 },
  fast: { pitch: 600, modulation: 120, on: 0.25, off: 0.25 },
  ringback: { pitch: 420, modulation: 40, on: 2, off: 4 },
  bell: { pitch: 1300, modulation: 20, on: 2, off: 4 },
};

// What a telephone sounds like, by its state (`phoneState`). A state that isn't here is silent.
const OF_STATE = {
  tone: 'dial', ringback: 'ringback', ringing: 'bell', LINEBUSY: 'busy', CALLEDBUSY: 'busy', REGISTERSBUSY: 'fast',
  TRUNKSBUSY: 'fast', NOPATH: 'fast', TROUBLE: 'fast', VACANTCODE: 'fast', VACANTNUMBER: 'fast', NOREGISTER: 'fast',
};

export const toneOf = state => OF_STATE[state] ?? null;

// The volume by the address, 0 to 1; null where it says nothing.
export function volumeIn(hash) {
  const [, percent] = /[#&]volume=(\d{1,3})(?:&|$)/.exec(hash) ?? [];
  return percent === undefined ? null : Math.min(100, Number(percent)) / 100;
}

export class Sound {
  constructor(Context = globalThis.AudioContext, hash = globalThis.location?.hash ?? '') {
    this.Context = Context;
    this.volume = volumeIn(hash) ?? 0.6;
    this.isMuted = this.volume === 0;
    this.playing = new Map();
  }

  get isThere() { return Boolean(this.Context); }

  // Begins to sound. To be called from a touch or a key.
  wake() {
    if (!this.isThere || this.context) return this.context?.resume?.();
    this.context = new this.Context();
    this.out = this.context.createGain();
    this.out.gain.value = this.isMuted ? 0 : this.volume;
    this.out.connect(this.context.destination);
  }

  mute(isMuted) {
    this.isMuted = isMuted;
    if (this.out) this.out.gain.value = isMuted ? 0 : this.volume;
  }

  // Lets exactly these telephones sound: [{key, tone, side}], where side is -1 at the left to 1 at the right.
  let(wanted) {
    const keys = new Set(wanted.map(({ key, tone }) => `${key} ${tone}`));
    for (const [name, stop] of this.playing) {
      if (keys.has(name)) continue;
      stop();
      this.playing.delete(name);
    }
    if (!this.context) return;
    for (const { key, tone, side } of wanted) {
      const name = `${key} ${tone}`;
      if (!this.playing.has(name)) this.playing.set(name, this.play(TONES[tone], side));
    }
  }

  silence() { this.let([]); }

  // Plays a tone until the function that it returns is called.
  play({ pitch, modulation, on, off }, side) {
    const { context } = this, gain = context.createGain(), depth = context.createGain();
    const carrier = this.oscillator(pitch), modulator = this.oscillator(modulation);
    gain.gain.value = on ? 0 : 0.12;
    depth.gain.value = 0.06;
    modulator.connect(depth).connect(gain.gain);
    carrier.connect(gain).connect(this.at(side));
    const begun = context.currentTime;
    let bursts = 0;
    const ahead = () => {
      for (; on && begun + bursts * (on + off) < context.currentTime + 8; bursts++) {
        const at = begun + bursts * (on + off);
        gain.gain.setValueAtTime(0.12, at);
        gain.gain.setValueAtTime(0, at + on);
      }
    };
    ahead();
    const timer = on ? setInterval(ahead, 2000) : null;
    return () => {
      clearInterval(timer);
      for (const it of [carrier, modulator]) it.stop();
      gain.disconnect();
    };
  }

  oscillator(pitch) {
    const it = this.context.createOscillator();
    it.frequency.value = pitch;
    it.start();
    return it;
  }

  // Where a sound comes from, left or right.
  at(side) {
    if (!this.context.createStereoPanner) return this.out;
    const it = this.context.createStereoPanner();
    it.pan.value = side;
    it.connect(this.out);
    return it;
  }

  // Two calls on one link.
  crash() {
    for (let at = 0; at < 6; at++) setTimeout(() => this.click(at % 2 ? 0.6 : -0.6, 140 - 12 * at, 0.5), 45 * at);
  }

  // A relay's click, or a pulse of a dial.
  click(side = 0, pitch = 900, loudness = 0.2) {
    if (!this.context || this.isMuted) return;
    const { context } = this, it = context.createOscillator(), gain = context.createGain(), now = context.currentTime;
    it.type = 'square';
    it.frequency.setValueAtTime(pitch, now);
    it.frequency.exponentialRampToValueAtTime(pitch / 8, now + 0.02);
    gain.gain.setValueAtTime(loudness, now);
    gain.gain.exponentialRampToValueAtTime(0.001, now + 0.03);
    it.connect(gain).connect(this.at(side));
    it.start(now);
    it.stop(now + 0.04);
  }
}

// The side that a step is heard from, by its frame: line link frames at the left, trunk link frames at the right.
export function sideOf(step) {
  const kind = step.object?.kind ?? '';
  return kind.startsWith('line') ? -0.7 : kind.startsWith('trunk') ? 0.7 : 0;
}
