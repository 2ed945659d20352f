// A fault of the rule or of the ballots, shown where it stands.

// of a longer line this much is shown around the place
const AROUND = 60;

// The line (from 1), the column in characters (from 1) and the text of the line for a place: a byte from 0, or a line.
function placeOf(fault, bytes) {
  const shown = (piece) => decoder.decode(piece).replace(/\r\n/g, '\n');
  const text = shown(bytes);
  const lines = text.split('\n');
  if (fault.of === 'profile') {
    const line = Math.min(fault.place, lines.length);
    const before = lines.slice(0, line - 1).reduce((sum, it) => sum + it.length + 1, 0);
    return { line, column: 0, text: lines[line - 1] || '', from: before, to: before + (lines[line - 1] || '').length };
  }
  const before = shown(bytes.subarray(0, fault.place));
  const line = before.split('\n').length;
  const column = before.length - before.lastIndexOf('\n');
  return {
    line, column, text: lines[line - 1] || '', from: before.length, to: before.length + 1, before,
    behind: text.slice(before.length) };
}

// The line with a caret under the place.
function drawExcerpt({ column, text }) {
  const from = column > AROUND ? column - AROUND : 0;
  const shown = text.slice(from, from + 2 * AROUND);
  const cut = from ? '…' : '';
  const caret = column ? `\n${' '.repeat(column - 1 - from + cut.length)}^` : '';
  return element('pre', { class: 'excerpt' }, cut + shown.replace(/[\t\r]/g, ' ') + caret);
}

// What a fault means, in words.
function faultSays({ of, kind }) {
  return (KNOWN.faults[of] || {})[kind] || kind;
}

function drawFault(fault, bytes, goThere) {
  const place = placeOf(fault, bytes);
  const where = place.column ? `Line ${place.line}, column ${place.column}` : `Line ${place.line}`;
  return [
    element('p', {}, element('strong', {}, `${where}: `), `${faultSays(fault)} `,
      element('span', { class: 'kind' }, `(${fault.kind})`)),
    drawExcerpt(place), drawMeant(fault, place),
    element('button', { type: 'button', onclick: () => goThere(place) }, 'Go there')];
}

// The same in a line, for the bar.
function drawFaultShort(fault, bytes, name, goThere) {
  const place = placeOf(fault, bytes);
  return element('p', {}, element('strong', {}, `Line ${place.line} of the ${name}: `), `${faultSays(fault)} `,
    element('button', { type: 'button', onclick: () => goThere(place) }, 'Go there'));
}

// ---- what may be meant

// more changes than these make another word
const MOST_CHANGES = 2;

// How many letters have to be put in, left out, changed, or exchanged with the next one, to make one word of the other.
function changesBetween(one, other) {
  let [before, row] = [[], Array.from({ length: other.length + 1 }, (_, i) => i)];
  for (let i = 1; i <= one.length; i++) {
    const next = [i];
    for (let j = 1; j <= other.length; j++) {
      const same = one[i - 1] === other[j - 1] ? 0 : 1;
      next[j] = Math.min(row[j] + 1, next[j - 1] + 1, row[j - 1] + same);
      const turned = i > 1 && j > 1 && one[i - 1] === other[j - 2] && one[i - 2] === other[j - 1];
      if (turned) next[j] = Math.min(next[j], before[j - 2] + 1);
    }
    [before, row] = [row, next];
  }
  return row[other.length];
}

// The word of these that is nearest to another one, where one is near enough to be meant.
function nearestTo(word, words) {
  const most = Math.min(MOST_CHANGES, Math.floor(word.length / 2));
  const near = words.map((it) => ({ it, changes: changesBetween(word, it) })).sort((a, b) => a.changes - b.changes);
  return near.length && near[0].changes > 0 && near[0].changes <= most ? near[0].it : null;
}

// The words that can stand at the place of a fault: those of the language and the names before, or rules of derivation.
function wordsAt(fault, place) {
  if (fault.kind === 'UnknownRule') return Object.keys(KNOWN.rules);
  if (fault.kind !== 'UnknownName' && fault.kind !== 'WrongSort') return [];
  const names = [...place.before.matchAll(/([a-z][a-z0-9-]*)\s*=/g)].slice(0, -1).map((found) => found[1]);
  return [...Object.keys(TAKES), ...Object.keys(KNOWN.scores), ...names];
}

function drawMeant(fault, place) {
  const [word] = /^[A-Za-z0-9_-]*/.exec(place.behind || '');
  const meant = word ? nearestTo(word.toLowerCase(), wordsAt(fault, place)) : null;
  return meant ? element('p', { class: 'meant' }, 'Is ', element('code', {}, meant), ' meant?') : [];
}
