// An office as a look tells it. Everything that the page shows of an office comes from here.
export const KINDS = {
  lineSwitch: 'line switch',
  lineJunctor: 'line junctor switch',
  trunkJunctor: 'trunk junctor switch',
  trunkSwitch: 'trunk switch',
};

// An office with more markers than this is shown in less detail.
export const MANY_MARKERS = 4;

export class Office {
  constructor(look, hasRows) {
    Object.assign(this, look);
    this.look = look;
    this.hasRows = hasRows;
    this.memberAt = new Map();
    this.plan.groups.forEach((group, number) => group.members.forEach((places, member) =>
      places.forEach((place, side) => this.memberAt.set(place, { group, number, member, side }))));
    this.numberOf = new Map();
    for (const { number, lines } of this.plan.numbers) {
      lines.forEach((line, at) => {
        if (!this.numberOf.has(line)) this.numberOf.set(line, lines.length > 1 ? `${number}/${at + 1}` : number);
      });
    }
    this.closed = closedCrosspoints(this.shown);
    this.paths = tracedPaths(this.closed);
  }

  // The name of a line: its number in the plan, if it has one.
  lineName(line) { return this.numberOf.get(line) ?? line; }

  // The name of a trunk place: its group and the number of its member.
  placeName(place) {
    const at = this.memberAt.get(place);
    return at ? `${at.group.name} ${at.member}` : place;
  }

  kindOf(place) { return this.memberAt.get(place)?.group.kind ?? 'none'; }

  pathOf(line) { return this.paths.find(path => path.line === line); }

  // The marker that has a job for this line, if one has.
  markerFor(line) { return this.markers.find(marker => marker.job?.line === line); }

  recordOf(job) { return this.records.find(record => record.job.number === job); }

  isBusy(group, member) {
    return this.shown.some(({ object, items }) =>
      object.kind === 'group' && object.number === group && items.some(item => item.field === member));
  }

  connector(kind, number) {
    return this.connectors.find(({ connector }) => connector.kind === kind && connector.number === number);
  }

  get isQuiet() { return this.markers.every(marker => !marker.job); }

  // The events of the last row that are steps.
  get lastSteps() { return this.events.filter(event => event.event === 'step'); }
}

// The closed crosspoints by kind of switch: each with its frame, the number of its switch, field and value.
function closedCrosspoints(shown) {
  const closed = Object.fromEntries(Object.values(KINDS).map(kind => [kind, []]));
  for (const { object: { kind, frame, number }, items } of shown) {
    if (kind === 'group') continue;
    closed[kind].push(...items.map(({ field, value }) => ({ frame, number, field, value })));
  }
  return closed;
}

// A line's number by its frame, switch and place on it.
export const lineText = (frame, number, place) => `${frame}${number}${Math.floor(place / 5)}${place % 5}`;

// The whole paths that these crosspoints close: from a line over four crosspoints to a trunk place.
function tracedPaths(closed) {
  const at = kind => new Map(closed[kind].map(it => [`${it.frame},${it.number},${it.field}`, it.value]));
  const trunkJunctor = at(KINDS.trunkJunctor), trunk = at(KINDS.trunkSwitch);
  const paths = [];
  for (const { frame: l, number: s, field: n, value } of closed[KINDS.lineSwitch]) {
    const junctor = closed[KINDS.lineJunctor].find(it => it.frame === l && it.number === n && it.value === s + 1);
    if (!junctor) continue;
    const t = junctor.field, u = trunkJunctor.get(`${t},${n},${l}`) - 1, a = trunk.get(`${t},${u},${n}`) - 1;
    if (!(u >= 0 && a >= 0)) continue;
    paths.push(pathParts(`${lineText(l, s, value - 1)}-${n}-${t}${u}${a}`));
  }
  return paths;
}

// The parts of a path by its text, such as 3041-0-417.
export function pathParts(text) {
  const [line, channel, place] = text.split('-');
  const [l, s, group, file] = [...line].map(Number), [t, u, a] = [...place].map(Number), n = Number(channel);
  return { line, place, channel: n, text, l, s, n, t, u, a, x: 5 * group + file };
}

// The parts of a link by its name, such as JU340.
export const linkParts = link => ({ kind: link.slice(0, 2), digits: [...link.slice(2)].map(Number) });

// The words and fields of a path's four crosspoints, from its line to its place.
export const crosspointsOf = ({ l, s, n, t, u }) =>
  [`${20 * l + s},${n}`, `${20 * l + 10 + n},${t}`, `${200 + 20 * t + 10 + n},${l}`, `${200 + 20 * t + u},${n}`];

// The names of its three links.
export const linksOf = ({ l, s, n, t, u }) => [`LL${l}${s}${n}`, `JU${l}${t}${n}`, `TL${t}${u}${n}`];
