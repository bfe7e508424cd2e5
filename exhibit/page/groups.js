// The groups of trunks and registers: a lamp for each member, small ones where there are many, and who holds the
// group's connector.
import { t } from './texts.js';
import { element, keepList } from './elements.js';
import { markerColour } from './layout.js';

const MANY_MEMBERS = 25;

export function showGroups(place, office) {
  const groups = office.plan.groups.map((group, number) => ({ ...group, number }));
  keepList(place, groups, group => `${group.number} ${group.name} ${group.members.length}`, makeGroup, (it, group) => {
    const connector = office.connector('group', group.number);
    const holder = connector?.holder ?? null;
    it.style.borderColor = holder === null ? '' : markerColour(holder);
    showHolders(it.querySelector('.who'), connector);
    const busy = group.members.map((_, member) => office.isBusy(group.number, member));
    [...it.querySelectorAll('.lamp')].forEach((lamp, member) => lamp.classList.toggle('on', busy[member]));
    const count = busy.filter(it => it).length;
    const says = { name: group.name, kind: t(`group.${group.kind}`), busy: count, all: busy.length };
    it.setAttribute('aria-label', t('group.says', says) + connectorWords(connector));
  });
}

function makeGroup(group) {
  const title = (places, member) => `${group.name} ${member}: ${places.join(', ')}`;
  const lamps = group.members.map((...it) => element('span', { class: 'lamp', title: title(...it) }));
  const kinds = group.members.length > MANY_MEMBERS ? 'group large' : 'group';
  return element('div', { class: kinds, role: 'group' },
    element('strong', {}, group.name), element('small', { 'data-t': `group.${group.kind}` }, t(`group.${group.kind}`)),
    element('span', { class: 'lamps' }, ...lamps), element('span', { class: 'who', 'aria-hidden': 'true' }));
}

// The markers that hold or request a connector, as small discs: full for the holder, empty for the others.
function showHolders(place, connector) {
  const holders = connector && connector.holder !== null ? [{ marker: connector.holder, kind: 'holder' }] : [];
  const all = holders.concat((connector?.requests ?? []).map(marker => ({ marker, kind: 'asker' }))).slice(0, 3);
  const disc = ({ marker, kind }) =>
    element('span', { class: `mark ${kind}`, style: `--own:${markerColour(marker)}` }, marker);
  keepList(place, all, it => `${it.marker} ${it.kind}`, disc, () => {});
}

function connectorWords(connector) {
  if (!connector) return '';
  const held = connector.holder === null ? '' : t('connector.held', { marker: connector.holder });
  const wanted = connector.requests.map(marker => t('connector.wanted', { marker }));
  return [held, ...wanted].filter(it => it).map(it => `; ${it}`).join('');
}
