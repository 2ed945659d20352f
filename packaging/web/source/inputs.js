// What the reader hands in: the rule and the ballots, typed, chosen, dropped, or from the page's own address.

// a text of more bytes isn't put into the box for typing, and a longer state isn't put into the link
const MOST_TYPED = 200000;
const MOST_LINKED = 16000;

// A box for typing, and the file that stands for it where that is too long or isn't text.
class Input {
  // `changed` is called after each change.
  constructor(box, note, changed) {
    Object.assign(this, { box, note, changed, file: null, original: null, kept: null });
    box.addEventListener('input', () => {
      this.kept = null;
      changed();
    });
    // lines break elsewhere in another width
    window.addEventListener('resize', () => this.kept === null || this.reveal(this.kept));
  }

  // The bytes of what is handed in: those of the file, as long as nothing of it was changed.
  get bytes() {
    if (this.file) return this.file.bytes;
    const { original } = this;
    return original && original.text === this.box.value ? original.bytes : new TextEncoder().encode(this.box.value);
  }

  // The text, or null where a file stands for it.
  get text() {
    return this.file ? null : this.box.value;
  }

  set(text, bytes = null) {
    this.file = null;
    this.box.value = text;
    this.kept = null;
    this.original = bytes && { text: this.box.value, bytes };
    this.box.hidden = false;
    fill(this.note);
    this.changed();
  }

  // Takes a file over: as text where it is short and is text, else as it is.
  take(name, bytes) {
    const text = textOf(bytes);
    if (text !== null && bytes.length <= MOST_TYPED) {
      this.set(text, bytes);
      return;
    }
    this.file = { name, bytes };
    this.box.hidden = true;
    const why = text === null ? 'isn\'t UTF-8' : 'is too long to be typed in';
    const away = element('button', { type: 'button', onclick: () => this.set('') }, 'Take it away');
    const told = `The file ${name} (${numbered(bytes.length, 'byte')}) is read as it is: it ${why}. `;
    fill(this.note, element('p', {}, told, away));
    this.changed();
  }

  // Sets the mark of the box to a place of it, and has it in sight.
  goTo({ from, to }) {
    if (this.file) return;
    this.box.focus();
    this.box.setSelectionRange(from, to);
    this.reveal(from);
    this.box.scrollIntoView({ block: 'nearest' });
  }

  // Scrolls the box to a place of it, as the third line where there are lines before. The mark stays where it is.
  reveal(from) {
    this.kept = this.file ? null : from;
    if (this.file) return;
    const mirror = element('div', { class: 'mirror', 'aria-hidden': 'true' });
    this.box.after(mirror);
    mirror.style.width = `${this.box.clientWidth}px`;
    const heightOf = (text) => {
      mirror.textContent = text;
      return mirror.getBoundingClientRect().height;
    };
    const line = heightOf('x\nx') - heightOf('x');
    this.box.scrollTop = heightOf(`${this.box.value.slice(0, from)}x`) - heightOf('x') - 2 * line;
    mirror.remove();
  }

  get isTyped() {
    return document.activeElement === this.box;
  }
}

// Where the last definition of a rule file begins.
function lastDefinition(text) {
  const found = [...text.matchAll(/^[ \t]*[a-z][a-z0-9-]*\s*=/gm)].pop();
  return found ? found.index : 0;
}

// The text of bytes, without the mark of byte order being lost, or null where they aren't UTF-8.
function textOf(bytes) {
  try {
    return new TextDecoder('utf-8', { fatal: true, ignoreBOM: true }).decode(bytes);
  } catch {
    return null;
  }
}

// Has files that are dropped on a place, or chosen by a button, taken over.
function takeFiles(place, chooser, take) {
  const first = async (files) => {
    if (!files.length) return;
    take(files[0].name, new Uint8Array(await files[0].arrayBuffer()));
  };
  chooser.addEventListener('change', () => {
    first(chooser.files);
    chooser.value = '';
  });
  place.addEventListener('dragover', (event) => {
    if (![...event.dataTransfer.types].includes('Files')) return;
    event.preventDefault();
    place.classList.add('over');
  });
  place.addEventListener('dragleave', () => place.classList.remove('over'));
  place.addEventListener('drop', (event) => {
    place.classList.remove('over');
    if (!event.dataTransfer.files.length) return;
    event.preventDefault();
    first(event.dataTransfer.files);
  });
}

// ---- the link

// What stands behind the # of the page's address: the rule and the ballots, or null where nothing does.
function readLink() {
  const given = new URLSearchParams(location.hash.slice(1));
  return given.has('rule') || given.has('ballots')
    ? { rule: given.get('rule') || '', ballots: given.get('ballots') || '' } : null;
}

// Writes the state behind the #. Whether the link has it is the answer.
function writeLink(rule, ballots) {
  const state = rule === null || ballots === null ? '' : String(new URLSearchParams({ rule, ballots }));
  const fits = state !== '' && state.length <= MOST_LINKED;
  const hash = fits ? `#${state}` : '#';
  try {
    if (location.hash !== hash) history.replaceState(null, '', hash);
  } catch {
    // some browsers refuse to have it changed too often: the next change has it right
    return false;
  }
  return fits;
}
