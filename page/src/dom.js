// Small helpers for the elements of the page.

const byId = id => document.getElementById(id);

// Makes an element with attributes and children. A child may be a text. An attribute `on..` is the handler of an event.
function element(name, attributes = {}, ...children) {
  const made = document.createElement(name);
  for (const [key, value] of Object.entries(attributes)) {
    if (key.startsWith('on')) made.addEventListener(key.slice(2), value);
    else if (value === true) made.setAttribute(key, '');
    else if (value !== false && value !== null && value !== undefined) made.setAttribute(key, value);
  }
  made.append(...children.filter(child => child !== null));
  return made;
}

// The same for an element of a picture.
function shape(name, attributes = {}, ...children) {
  const made = document.createElementNS('http://www.w3.org/2000/svg', name);
  for (const [key, value] of Object.entries(attributes)) {
    if (key.startsWith('on')) made.addEventListener(key.slice(2), value);
    else made.setAttribute(key, value);
  }
  made.append(...children);
  return made;
}

function button(text, onclick, attributes = {}) {
  return element('button', { type: 'button', onclick, ...attributes }, text);
}

// Makes the children of an element anew. If one of them had the focus, its successor of the same name gets the focus.
function keepFocus(parent, make) {
  const nameOf = child => child.getAttribute('aria-label') ?? child.textContent;
  const { activeElement } = document, name = parent.contains(activeElement) ? nameOf(activeElement) : null;
  make();
  if (!name) return;
  const next = [...parent.querySelectorAll('button, select, input')].find(child => nameOf(child) === name);
  next?.focus();
}

// Fills a menu with options, each a value and a text, and keeps the value that was chosen if there still is one.
function fillMenu(menu, options) {
  const before = menu.value;
  menu.replaceChildren(...options.map(([value, text]) => element('option', { value }, text)));
  if (options.some(([value]) => value === before)) menu.value = before;
}

const utf8Of = text => new TextEncoder().encode(text);
const textOf = bytes => new TextDecoder().decode(bytes);

// Hands bytes to the browser's download, under a name.
function save(name, bytes) {
  const address = URL.createObjectURL(new Blob([bytes], { type: 'application/octet-stream' }));
  const link = element('a', { href: address, download: name });
  document.body.append(link);
  link.click();
  link.remove();
  setTimeout(() => URL.revokeObjectURL(address), 10000);
}

const mebibytes = bytes => `${(bytes / 2 ** 20).toFixed(1)} MiB`;

function sizeText(bytes) {
  return bytes < 10000 ? `${bytes} B` : bytes < 2 ** 20 ? `${(bytes / 1024).toFixed(0)} KiB` : mebibytes(bytes);
}
