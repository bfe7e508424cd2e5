// What a visitor can do now, in one line, and the button that does it.
import { t } from './texts.js';
import { setText } from './elements.js';
import { phoneOf, phoneState } from './telephones.js';
import { spaced } from './words.js';

// States in which there is nothing to do but to hang up.
const IS_OVER = ['LINEBUSY', 'REGISTERSBUSY', 'NOREGISTER', 'VACANTCODE', 'VACANTNUMBER', 'CALLEDBUSY', 'TRUNKSBUSY',
  'TROUBLE', 'NOPATH', 'gone'];
// What each state of a lifted telephone lets its visitor do.
const TO_DO = { tone: 'dial', dialling: 'digits', wanting: 'listen', calling: 'wait', ringback: 'wait', talking: 'talk',
  outside: 'talk' };

// What to do now in an office with these telephones, of which one is chosen: a key of the texts (`now.*`), the telephone
// that it is about, and how many digits are dialled.
export function nowOf(office, visitor, lines, chosen) {
  const stateOf = line => phoneState(visitor, office, line);
  const ringing = lines.find(line => stateOf(line) === 'ringing');
  if (ringing !== undefined) return { what: 'answer', line: ringing };
  const lifted = lines.filter(line => phoneOf(visitor, line).lifted);
  const line = lifted.includes(chosen) ? chosen : lifted[0];
  if (line === undefined) return { what: 'lift', line: chosen };
  const state = stateOf(line);
  return { what: IS_OVER.includes(state) ? 'hang' : TO_DO[state] ?? 'wait', line, digits: phoneOf(visitor, line).digits };
}

// The number that the guide proposes to dial: after each call another one of this office, and never the caller's own.
export function proposed(office, line) {
  const { codes, groups, numbers } = office.plan, calls = office.records.filter(it => it.end === 'CONNECTED').length;
  const code = codes.find(it => groups[it.groups[0]].kind === 'intra');
  const others = [...numbers].reverse().filter(it => !it.lines.includes(line) && it.lines.every(one => !office.pathOf(one)));
  return code && others.length ? code.code + others[calls % others.length].number : null;
}

// Shows what to do now. `nameOf(line)` names whoever has a telephone, or nobody.
export function showNow(place, office, now, nameOf) {
  const digits = proposed(office, now.line), dialled = now.digits ?? '';
  const isOn = Boolean(digits?.startsWith(dialled)), other = digits && office.plan.numbers.find(it => digits.endsWith(it.number));
  const who = other ? nameOf(other.lines[0]) || other.number : '', own = nameOf(now.line) || office.lineName(now.line);
  const what = ['dial', 'digits'].includes(now.what) && !isOn ? digits ? 'wrong' : 'any' : now.what;
  setText(place, t(`now.${what}`, { line: own, who, rest: spaced(digits ?? '').slice(dialled.length + (dialled.length > 2)), steps: now.steps ?? '' }));
}
