// The texts of the page. Each language is a file in texts/, an object of texts by key; a text may
// have values in braces. What a language lacks is taken from English.
class Texts {
  constructor(all, language) {
    this.all = all;
    this.use(language);
    this.atFirst = this.language;
  }

  get languages() { return Object.keys(this.all); }

  use(language) {
    this.language = this.all[language] ? language : 'en';
    this.own = this.all[this.language];
  }

  // Adds a language, or changes some texts of one.
  add(name, its) {
    this.all[name] = { name, ...this.all[name], ...its };
    this.use(this.language);
  }

  // The language that the page begins with.
  begin(language) {
    this.use(language);
    this.atFirst = this.language;
  }

  has(key) { return key in this.own || key in this.all.en; }

  say(key, values = {}) {
    const text = this.own[key] ?? this.all.en[key] ?? key;
    return text.replace(/\{(\w+)\}/g, (whole, name) => values[name] ?? whole);
  }
}

export const texts = new Texts(TEXTS, navigator.language.slice(0, 2));
export const t = (key, values) => texts.say(key, values);
export const hasText = key => texts.has(key);

// Puts the texts into all elements that name one.
export function showTexts(root = document) {
  for (const it of root.querySelectorAll('[data-t]')) it.textContent = t(it.dataset.t);
  for (const it of root.querySelectorAll('[data-t-label]')) it.setAttribute('aria-label', t(it.dataset.tLabel));
}
