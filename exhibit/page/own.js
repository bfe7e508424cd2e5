// What a hall puts beside the page, in a file `exhibit.own.js` in the same folder. It is read if the address says so, as in
// `exhibit.html#kiosk&own`:
//
//   window.EXHIBIT_OWN = { plan: `..`, language: 'fr', texts: { fr: { .. } } };
//
// Each part may be missing. `plan` is the plan of a visitor's day, `texts` has further languages or other texts for those
// that come with the page, and `language` is the one that the page begins with. A plan that the engine refuses is told,
// and the example plan takes its place.
import { element } from './elements.js';
import { texts } from './texts.js';

// Reads the file.
function ownFile() {
  if (!/[#&]own(?=&|$)/.test(location.hash)) return Promise.resolve({});
  return new Promise(done => {
    const file = element('script', { src: 'exhibit.own.js' });
    file.addEventListener('load', () => done(window.EXHIBIT_OWN ?? {}));
    file.addEventListener('error', () => done({}));
    document.head.append(file);
  });
}

// Adds the texts of a hall, and gives its plan, if it has one.
export async function readOwn(own = ownFile()) {
  const { plan, language, texts: added = {} } = await own;
  for (const [name, its] of Object.entries(added)) texts.add(name, its);
  if (language) texts.begin(language);
  return typeof plan === 'string' ? plan : null;
}
