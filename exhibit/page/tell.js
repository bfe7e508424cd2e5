// What something in the picture is, in one sentence, for whoever touches it.
import { t } from './texts.js';
import { linkParts } from './office.js';

// A link by its name, digit by digit.
export function linkWords(link) {
  const { kind, digits: [first, second, channel] } = linkParts(link);
  return t(`tell.${kind}`, { link, first, second, channel });
}

// A frame, with the marker that holds it, if one does.
export function frameWords(kind, number, office) {
  const holder = office.connector(kind, number)?.holder;
  const held = holder === null || holder === undefined ? t('tell.free') : t('tell.held', { marker: holder });
  return `${t(`tell.${kind}`, { number })} ${held}`;
}

// What was touched, by the names that the picture has put on its parts; nothing if they have none.
export function touchedWords(part, office) {
  const it = part.closest('[data-link], [data-frame]');
  if (!it) return '';
  if (it.dataset.link) return linkWords(it.dataset.link);
  const [kind, number] = it.dataset.frame.split(':');
  return frameWords(kind, Number(number), office);
}
