// The small table: ballots as rows whose alternatives are put in order by dragging them or by keys. Each ballot is one
// stop of the tabulator key: the arrow keys go on within it, and with the shift key they move the alternative.

class BallotTable {
  // `changed` is called with the new text, and `say` with a sentence for readers of the screen.
  constructor(place, changed, say) {
    Object.assign(this, { place, changed, say, ballots: null, kept: '' });
    place.addEventListener('focusin', (event) => this.stopAt(event.target));
    place.addEventListener('keydown', (event) => this.goOn(event));
  }

  // Makes the part of a ballot that has the focus the one that the tabulator key comes back to.
  stopAt(part) {
    const row = part.closest('.ranked > li');
    if (!row || part.dataset.key === undefined) return;
    for (const it of row.querySelectorAll('[data-key]')) it.tabIndex = it === part ? 0 : -1;
  }

  // The arrow keys, within a ballot and from one to the next.
  goOn(event) {
    const row = event.target.closest('.ranked > li');
    const step = { ArrowLeft: -1, ArrowRight: 1 }[event.key] || 0;
    const over = { ArrowUp: 'previousElementSibling', ArrowDown: 'nextElementSibling' }[event.key];
    if (!row || event.shiftKey || !(step || over) || isWithin(event.target, step)) return;
    event.preventDefault();
    const parts = [...row.querySelectorAll('[data-key]')];
    const place = parts.indexOf(event.target);
    const next = over ? row[over] && [...row[over].querySelectorAll('[data-key]')][place] : parts[place + step];
    if (next) next.focus();
  }

  // Draws the table of a text, where it can be drawn. What was drawn of the same text stays as it is.
  show(text) {
    if (text === this.kept && this.place.firstChild) return;
    this.kept = text;
    this.ballots = text === null ? null : readBallots(text);
    this.draw();
  }

  draw() {
    if (!this.ballots) {
      fill(this.place, element('p', {}, `The table is here for ballots without a fault, up to ${MOST_BALLOTS} lines `
        + `and ${MOST_ALTERNATIVES} alternatives.`));
      return;
    }
    const rows = this.ballots.lines.map((line, i) => this.row(line, i));
    fill(this.place, this.names(), element('ol', { class: 'ranked' }, rows), this.buttons());
  }

  // Takes over what the hand did to the ballots.
  take(ballots, keepFocus) {
    const focus = keepFocus && document.activeElement && document.activeElement.dataset.key;
    this.ballots = ballots;
    this.kept = ballotsText(ballots);
    this.draw();
    if (focus) {
      const again = this.place.querySelector(`[data-key="${focus}"]`);
      if (again) again.focus();
    }
    this.changed(this.kept);
  }

  names() {
    const { alternatives, names } = this.ballots;
    const inputs = Array.from({ length: alternatives }, (_, i) => element('label', {},
      element('span', { class: 'number' }, i + 1),
      element('input', {
        value: names[i + 1] || '', placeholder: 'name', 'aria-label': `Name of alternative ${i + 1}`, maxlength: 200,
        'data-key': `name-${i + 1}`, onchange: (event) => this.rename(i + 1, event.target.value) })));
    return element('div', { class: 'names' }, inputs);
  }

  rename(number, name) {
    const names = { ...this.ballots.names, [number]: name.trim() };
    this.take({ ...this.ballots, names }, true);
  }

  row({ count, order }, line) {
    const chips = order.map((alternative, place) => this.chip(alternative, place, line));
    return element('li', {},
      element('input', {
        class: 'voters', value: count, inputmode: 'numeric', pattern: '[0-9]+', tabindex: -1,
        'data-key': `count-${line}`,
        'aria-label': `How many voters cast ballot ${line + 1}`,
        onchange: (event) => this.recount(line, event.target) }),
      element('ol', { class: 'chips', role: 'listbox', 'aria-label': `Ballot ${line + 1}, the best first` }, chips),
      element('button', {
        type: 'button', class: 'small', 'aria-label': `Take ballot ${line + 1} away`, title: 'Take this ballot away',
        'data-key': `away-${line}`, tabindex: -1,
        onclick: () => this.take({ ...this.ballots, lines: this.ballots.lines.filter((_, i) => i !== line) }) }, '×'));
  }

  recount(line, input) {
    const value = input.value.trim();
    if (!/^\d{1,20}$/.test(value)) {
      input.value = this.ballots.lines[line].count;
      this.say('The number of voters has to be digits.');
      return;
    }
    this.replace(line, { ...this.ballots.lines[line], count: value.replace(/^0+(?=\d)/, '') }, true);
  }

  replace(line, by, keepFocus) {
    this.take({ ...this.ballots, lines: this.ballots.lines.map((it, i) => (i === line ? by : it)) }, keepFocus);
  }

  chip(alternative, place, line) {
    const { names, alternatives } = this.ballots;
    const label = `${labelOf(alternative, names)}, place ${place + 1} of ${alternatives} on ballot ${line + 1}`;
    return element('li', {
      class: 'chip', role: 'option', 'aria-selected': 'false', tabindex: place ? -1 : 0,
      'data-key': `chip-${line}-${alternative}`, 'data-alternative': alternative,
      'aria-label': `${label}. With Shift, the arrow keys move it.`,
      onkeydown: (event) => this.pressed(event, alternative, line),
      onpointerdown: (event) => this.dragged(event, line) }, alternativeName(alternative, names));
  }

  // The arrow keys with Shift: one place to the front or to the back; Home and End with it: to the ends.
  pressed(event, alternative, line) {
    if (!event.shiftKey) return;
    const order = this.ballots.lines[line].order;
    const from = order.indexOf(alternative);
    const last = order.length - 1;
    const [before, behind] = [from - 1, from + 1];
    const to = {
      ArrowLeft: before, ArrowUp: before, ArrowRight: behind, ArrowDown: behind, Home: 0, End: last }[event.key];
    if (to === undefined) return;
    event.preventDefault();
    if (to < 0 || to > last || to === from) return;
    const moved = order.filter((it) => it !== alternative);
    moved.splice(to, 0, alternative);
    this.replace(line, { ...this.ballots.lines[line], order: moved }, true);
    this.say(`${labelOf(alternative, this.ballots.names)} is now at place ${to + 1} of ballot ${line + 1}.`);
  }

  // The chip follows the pointer among those of its ballot, and the order is taken over when it is let go.
  dragged(event, line) {
    if (event.button !== 0) return;
    const item = event.currentTarget;
    const list = item.parentElement;
    const move = (now) => {
      const under = document.elementFromPoint(now.clientX, now.clientY);
      const other = under && under.closest('.chips > li');
      if (!other || other === item || other.parentElement !== list) return;
      const items = [...list.children];
      if (items.indexOf(other) < items.indexOf(item)) other.before(item);
      else other.after(item);
      item.classList.add('moved');
    };
    const end = () => {
      document.removeEventListener('pointermove', move);
      document.removeEventListener('pointerup', end);
      document.removeEventListener('pointercancel', end);
      if (!item.classList.contains('moved')) return;
      const order = [...list.querySelectorAll('.chip')].map((it) => Number(it.dataset.alternative));
      this.replace(line, { ...this.ballots.lines[line], order }, true);
    };
    document.addEventListener('pointermove', move);
    document.addEventListener('pointerup', end);
    document.addEventListener('pointercancel', end);
  }

  // The buttons below the ballots.
  buttons() {
    const { alternatives, lines } = this.ballots;
    const ascending = Array.from({ length: alternatives }, (_, i) => i + 1);
    const button = (text, possible, make) => element('button', {
      type: 'button', disabled: !possible, 'data-key': text, onclick: () => this.take(make(), true) }, text);
    return element('p', { class: 'row' },
      button('Add a ballot', lines.length < MOST_BALLOTS,
        () => ({ ...this.ballots, lines: [...lines, { count: '1', order: ascending }] })),
      button('Add an alternative', alternatives < MOST_ALTERNATIVES, () => withOneMore(this.ballots)),
      button('Take the last alternative away', alternatives > 1, () => withoutLast(this.ballots)));
  }
}

// Whether a step of the mark stays within a box for typing.
function isWithin(box, step) {
  if (!(box instanceof HTMLInputElement) || !step) return false;
  return step < 0 ? box.selectionStart > 0 : box.selectionEnd < box.value.length;
}
