// What the colours and shapes of the picture mean, without those that can't be in it: of links out of order where an
// office has none, and of links that carry two calls where no other office stands beside it.
import { t } from './texts.js';
import { element, keepList, setText } from './elements.js';

export function showLegend(list, { plan }, hasOther) {
  const trouble = [...plan.faults.length ? ['fault', 'tried'] : [], ...hasOther ? ['alarm'] : []];
  const kinds = ['register', 'call', ...trouble, 'switch', 'next', 'holder', 'asker'];
  const text = kind => element('span', { 'data-t': `legend.${kind}` });
  const make = kind => element('li', {}, element('i', { class: kind }), text(kind));
  keepList(list, kinds, kind => kind, make, (it, kind) => setText(it.lastChild, t(`legend.${kind}`)));
}
