// The visitor's side of an office: telephones with receivers and digits, and wishes, the jobs that wait for an
// idle marker. It is a plain object that a session keeps with its rows: {phones, wishes}. What a telephone
// hears follows from the office and from this.
import { assignment, MOST_JOBS, steps } from './session.js';

const DIGITS = 7;

export const newVisitor = () => ({ phones: {}, wishes: [] });

export const phoneOf = (visitor, line) => visitor.phones[line] ?? { lifted: false, digits: '', job: null };

// Does something to the visitor's side as one action: the jobs that it leads to are assigned to idle markers.
export function visit(session, change) {
  return session.inTurn(async () => {
    const visitor = structuredClone(session.visitor);
    change(visitor, session.office);
    const rows = assignWishes(visitor, session);
    return session.addNow(rows, visitor);
  });
}

// Makes steps, and assigns the jobs that have waited for a marker that became idle, as the same action.
export function makeSteps(session, marker, count) {
  return session.inTurn(async () => {
    const fault = await session.addNow([steps(marker, count)]);
    if (fault || !session.visitor?.wishes?.length) return fault;
    const visitor = structuredClone(session.visitor), rows = assignWishes(visitor, session);
    return rows.length ? session.addNow(rows, visitor, true) : null;
  });
}

// The rows that give wishes to idle markers, the oldest wish first. A line has one job at a time.
function assignWishes(visitor, session) {
  const { office } = session, rows = [], kept = [];
  const idle = office.markers.filter(it => !it.job), lines = new Set(office.markers.flatMap(it => it.job?.line ?? []));
  let number = session.nextJob();
  for (const wish of visitor.wishes) {
    const waits = lines.has(wish.line);
    if (!waits && wish.kind === 'R' && !office.pathOf(wish.line)) continue;
    const place = idle.findIndex(it => takes(it.kind, wish.kind));
    if (waits || place < 0 || number === null) { kept.push(wish); lines.add(wish.line); continue; }
    const args = wish.digits ? `${wish.line} ${wish.digits}` : wish.line;
    rows.push(assignment(idle[place].marker, number, wish.kind, args));
    lines.add(wish.line);
    idle.splice(place, 1);
    if (visitor.phones[wish.line]) visitor.phones[wish.line].job = number;
    number = number + 1 < MOST_JOBS ? number + 1 : null;
  }
  visitor.wishes = kept;
  return rows;
}

const takes = (kind, job) => kind === 'combined' || (kind === 'dial tone') === (job === 'D');

export function lift(visitor, office, line) {
  if (phoneOf(visitor, line).lifted) return;
  visitor.phones[line] = { lifted: true, digits: '', job: null };
  if (!isCalled(office, line)) visitor.wishes.push({ kind: 'D', line });
}

export function hang(visitor, office, line) {
  if (!phoneOf(visitor, line).lifted) return;
  visitor.phones[line] = { lifted: false, digits: '', job: null };
  visitor.wishes = visitor.wishes.filter(wish => wish.line !== line);
  if (office.pathOf(line) || office.markerFor(line)) visitor.wishes.push({ kind: 'R', line });
}

export function dial(visitor, office, line, digit) {
  const phone = visitor.phones[line];
  if (!['tone', 'dialling'].includes(phoneState(visitor, office, line)) || phone.digits.length >= DIGITS) return;
  phone.digits += digit;
  if (phone.digits.length === DIGITS) visitor.wishes.push({ kind: 'C', line, digits: phone.digits });
}

// Whether the line is the called side of a call inside the office.
function isCalled(office, line) {
  const path = office.pathOf(line), at = path && office.memberAt.get(path.place);
  return Boolean(at) && at.group.kind === 'intra' && at.side === 1;
}

// The line at the other place of the trunk that a path of a call inside the office has.
export function partnerOf(office, path) {
  const at = office.memberAt.get(path.place), place = at.group.members[at.member][1 - at.side];
  return office.paths.find(it => it.place === place)?.line;
}

// What a telephone does or hears: a word of the list in the texts (`phone.*`).
export function phoneState(visitor, office, line) {
  const phone = phoneOf(visitor, line), wish = visitor.wishes.find(it => it.line === line);
  const kind = wish?.kind ?? office.markerFor(line)?.job.kind;
  if (!phone.lifted) {
    if (kind === 'R') return 'leaving';
    return isCalled(office, line) ? 'ringing' : kind && !visitor.phones[line] ? 'working' : 'idle';
  }
  if (kind === 'D') return 'wanting';
  if (kind === 'C') return 'calling';
  if (kind === 'R') return 'gone';
  return heard(visitor, office, line, phone);
}

// What a lifted receiver hears while no job is under way for its line.
function heard(visitor, office, line, phone) {
  const path = office.pathOf(line);
  if (path) {
    const on = office.kindOf(path.place);
    if (on === 'register') return phone.digits ? 'dialling' : 'tone';
    if (on === 'outgoing') return 'outside';
    const partner = partnerOf(office, path);
    return isCalled(office, line) || (partner && phoneOf(visitor, partner).lifted) ? 'talking' : 'ringback';
  }
  const end = phone.job === null ? undefined : office.recordOf(phone.job)?.end;
  if (end === undefined) return phone.job === null ? 'gone' : 'wanting';
  return ['DIALTONE', 'CONNECTED', 'RELEASED', 'NOCALL'].includes(end) ? 'gone' : end;
}
