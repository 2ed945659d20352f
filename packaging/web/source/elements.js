// Elements of the page. What is put into them is text and stays text, whatever a name looks like.

// what isn't a character of a page, and what would turn the text behind it round
const UNSEEN = new RegExp('[\\x00-\\x08\\x0b-\\x1f\\x7f-\\x9f\\u2028-\\u202e\\u2066-\\u2069\\ufeff\\ufdd0-\\ufdef'
  + '\\ufffe\\uffff]|[\\ud800-\\udbff](?![\\udc00-\\udfff])|(?<![\\ud800-\\udbff])[\\udc00-\\udfff]', 'g');

function seen(text) {
  const named = (sign) => `[U+${sign.charCodeAt(0).toString(16).toUpperCase().padStart(4, '0')}]`;
  return String(text).replace(UNSEEN, named);
}

// The element of this name. Attributes whose names begin with `on` are handlers of events.
function element(name, attributes = {}, ...content) {
  const made = document.createElement(name);
  for (const [key, value] of Object.entries(attributes)) {
    if (value === undefined || value === false) continue;
    if (key.startsWith('on')) made.addEventListener(key.slice(2), value);
    else made.setAttribute(key, value === true ? '' : value);
  }
  made.append(...content.flat(Infinity).map(nodeOf));
  return made;
}

// An element of a drawing, with attributes and elements within.
function drawing(name, attributes = {}, ...content) {
  const made = document.createElementNS('http://www.w3.org/2000/svg', name);
  for (const [key, value] of Object.entries(attributes)) made.setAttribute(key, value);
  made.append(...content.flat(Infinity).map(nodeOf));
  return made;
}

function nodeOf(part) {
  return part instanceof Node ? part : document.createTextNode(seen(part));
}

// Fills an element anew.
function fill(place, ...content) {
  place.replaceChildren(...content.flat(Infinity).map(nodeOf));
}

function at(id) {
  return document.getElementById(id);
}

// The text of a term, in which lines may be broken before each part.
function termCode(text) {
  const parts = seen(text).split(/(?<=[(,])(?=[a-z])/);
  return element('code', {}, parts.flatMap((part, i) => (i ? [element('wbr'), part] : [part])));
}

// A sentence of the documents: code, stress and the words of links are kept.
function prose(text) {
  const parts = text.replace(/\[([^\]]*)\]\([^)]*\)/g, '$1').split(/`([^`]*)`/);
  const stressed = (part) => part.split(/\*+([^*]+)\*+/).map((it, i) => (i % 2 ? element('em', {}, it) : it));
  return parts.flatMap((part, i) => (i % 2 ? [termCode(part)] : stressed(part)));
}

function numbered(number, noun) {
  return `${number.toLocaleString('en')} ${noun}${number === 1 ? '' : 's'}`;
}

// so many members of a list are shown at once; the others are folded
const LISTED = 10;

// The summary of what is folded of a list.
function andMore(number) {
  return element('summary', {}, `and ${number.toLocaleString('en')} more`);
}

// Hands the reader a file.
function save(name, content, type = 'text/plain') {
  const address = URL.createObjectURL(new Blob([content], { type }));
  element('a', { href: address, download: name }).click();
  setTimeout(() => URL.revokeObjectURL(address), 10000);
}
