// Small helpers for elements.
import { t } from './texts.js';

export const $ = id => document.getElementById(id);

// An element with these attributes and contents. An attribute that begins with `on` is a listener.
export function element(name, attributes = {}, ...contents) {
  const it = document.createElement(name);
  setAttributes(it, attributes);
  it.append(...contents);
  return it;
}

// The same for an element of SVG.
export function figure(name, attributes = {}, ...contents) {
  const it = document.createElementNS('http://www.w3.org/2000/svg', name);
  setAttributes(it, attributes);
  it.append(...contents);
  return it;
}

function setAttributes(it, attributes) {
  for (const [name, value] of Object.entries(attributes)) {
    if (name.startsWith('on')) it.addEventListener(name.slice(2), value);
    else if (value === true) it.setAttribute(name, '');
    else if (value === false || value === null || value === undefined) continue;
    // Not as an attribute, which the server's policy forbids.
    else if (name === 'style') it.style.cssText = value;
    else it.setAttribute(name, value);
  }
}

export function button(label, listener, attributes = {}) {
  return element('button', { type: 'button', ...attributes, onclick: listener }, label);
}

// A button that acts as soon as a finger is down, so that two people can press two at once: a browser makes a click of one
// finger alone. A click without a pointer is one by the keyboard.
export function quickButton(label, listener, attributes = {}) {
  const onpointerdown = event => { if (!event.button) listener(event); };
  const onclick = event => { if (!event.detail) listener(event); };
  return element('button', { type: 'button', ...attributes, onpointerdown, onclick }, label);
}

// A button whose label is a text of the page, by its key.
export function textButton(key, listener, attributes = {}) {
  return button(element('span', { 'data-t': key }, t(key)), listener, attributes);
}

export const buttons = (...contents) => element('p', { class: 'buttons' }, ...contents);

// Replaces the children of an element one by one, and leaves those that are the same by key, so that
// focus stays where it is. `make(item)` makes an element; `update(element, item)` brings it up to date.
export function keepList(parent, items, keyOf, make, update) {
  const old = new Map([...parent.children].map(it => [it.dataset.key, it]));
  items.forEach((item, place) => {
    const key = String(keyOf(item));
    let it = old.get(key);
    if (!it) {
      it = make(item);
      it.dataset.key = key;
    }
    old.delete(key);
    update(it, item);
    if (parent.children[place] !== it) parent.insertBefore(it, parent.children[place] ?? null);
  });
  for (const it of old.values()) it.remove();
}

// Changes an element's text or attribute only if it differs, so that a screen reader isn't disturbed.
export function setText(it, text) { if (it.textContent !== text) it.textContent = text; }
export function setFlag(it, name, value) { if (it.hasAttribute(name) !== value) it.toggleAttribute(name, value); }

export const isThere = value => value !== null && value !== undefined;

export const stillWanted = matchMedia('(prefers-reduced-motion: reduce)');
export const pause = ms => new Promise(done => setTimeout(done, ms));
