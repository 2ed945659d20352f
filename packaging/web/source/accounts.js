// How the result came about: the steps of the rule with their scores as bars, and the pairs. It is drawn as on the page
// of a report.

// what is drawn of larger things: the first steps; no table of more alternatives or rounds
const STEPS = 400;
const TABLED = 24;
const ROUNDS = 12;

// of a longer name this much is shown here
const NAME_SHOWN = 40;

function toldAlternative(number, names) {
  const name = names[number];
  const shown = [element('span', { class: 'number' }, number)];
  if (name === undefined) return shown;
  const cut = name.length > NAME_SHOWN ? `${name.slice(0, NAME_SHOWN)}…` : name;
  return [...shown, ' ', element('bdi', { class: 'name' }, cut)];
}

// These alternatives in a sentence, and of many how many more there are.
function allTold(numbers, names) {
  const shown = numbers.slice(0, LISTED);
  const more = numbers.length - shown.length;
  return [
    shown.flatMap((number, i) => [...(i ? [', '] : []), ...toldAlternative(number, names)]),
    more ? ` and ${more.toLocaleString('en')} more` : []];
}

// The parts of a term in the order of their places.
function partsOf(term) {
  return [term, ...term.parts.flatMap(partsOf)];
}

function isRepeated(term) {
  return term.word === 'loop' || term.word === 'until';
}

// The visits as a tree: the last one, with those that it follows from, of its parts and of the rounds of a loop.
function accountOf(visits, whole) {
  let next = 0;
  const account = (place, term) => {
    const below = [];
    if (isRepeated(term)) {
      while (visits[next].place !== place) below.push(account(place + 1, term.parts[0]));
    } else {
      let behind = place + 1;
      for (const part of term.parts) {
        below.push(account(behind, part));
        behind += partsOf(part).length;
      }
    }
    next += 1;
    return { visit: visits[next - 1], term, below };
  };
  return account(0, whole);
}

// ---- the steps

function drawSteps(visits, term, names) {
  const head = element('p', {}, 'Each step is a part of the rule. It decides on some alternatives, and all others are '
    + 'struck from the ballots before it counts. You can check the result by hand: count the scores on the ballots, '
    + 'and see that each step follows from the steps inside it.');
  if (visits.length > STEPS) {
    return [head, element('p', {}, `There are ${visits.length.toLocaleString('en')} steps, too many to be drawn. The `
      + 'text of explain has them all.')];
  }
  return [head, element('div', { class: 'steps' },
    element('ul', { role: 'list' }, drawStep(accountOf(visits, term), names, true)))];
}

function drawStep(account, names, unfolded) {
  const { visit, term, below } = account;
  if (!below.length) return element('li', { class: 'step' }, drawAsked(account, names), drawScored(account, names));
  const alone = below.length === 1 && !isRepeated(term);
  const inner = isTabled(account)
    ? drawRounds(visit, below.map((part) => part.visit), below[0].term, names)
    : element('ul', { role: 'list' }, below.map((part) => drawStep(part, names, alone || isTabled(part))));
  return element('li', { class: 'step' }, element('details', { open: Boolean(unfolded) },
    element('summary', {}, drawAsked(account, names)), inner));
}

// Which part was asked, about how many, and what it made of them.
function drawAsked({ visit, term }, names) {
  const head = headOf(term, term.parts.map(() => '…'));
  const made = [['elects', visit.split.elected], ['rejects', visit.split.rejected], ['defers', visit.split.deferred]];
  const said = made.filter(([, numbers]) => numbers.length)
    .flatMap(([verb, numbers], i) => [i ? '; ' : '', `${verb} `, allTold(numbers, names)]);
  const count = visit.of.length;
  const about = count === 0 ? 'nobody' : count === 1 ? 'one alternative' : numbered(count, 'alternative');
  return [termCode(head), ' ', element('span', { class: 'gloss' }, `decides on ${about}: `),
    said.length ? said : 'so nothing happens'];
}

function drawScored({ visit, term }, names) {
  if (!visit.scores || !visit.scores.size || visit.scores.size > TABLED * 4) return [];
  return [drawScores(visit, [visit], term, ['Score'], names)];
}

// Whether the rounds make one table: they are of one module that goes by scores, and few.
function isTabled({ visit, term, below }) {
  const scored = below.every((part) => !part.below.length && part.visit.scores);
  const few = below.length <= ROUNDS && visit.of.length <= TABLED;
  return isRepeated(term) && below.length > 0 && scored && few;
}

function drawRounds(whole, visits, term, names) {
  return drawScores(whole, visits, term, visits.map((_, i) => `Round ${i + 1}`), names);
}

// A row an alternative, a column a visit: the score with a bar, and what becomes of who doesn't stay.
function drawScores(whole, visits, term, titles, names) {
  const scores = visits.flatMap((visit) => [...visit.scores.values()]);
  const least = scores.reduce((a, b) => (b < a ? b : a), 0n);
  const most = scores.reduce((a, b) => (b > a ? b : a), 0n);
  const heads = ['Alternative', ...titles].map((title) => element('th', { scope: 'col' }, title));
  const rows = byLeaving(whole.of, visits).map((one) => element('tr', {},
    element('th', { scope: 'row' }, toldAlternative(one, names)),
    visits.map((visit) => drawCell(visit, one, least, most))));
  const table = (shown, ...caption) => element('table', { class: 'scores' }, caption,
    element('thead', {}, element('tr', {}, heads.map((it) => it.cloneNode(true)))), element('tbody', {}, shown));
  const rest = rows.slice(LISTED);
  return element('div', { class: 'wide', tabindex: '0', role: 'group', 'aria-label': 'scores' },
    table(rows.slice(0, LISTED), element('caption', {}, 'Scores by which ', termCode(term.text), ' goes')),
    rest.length ? element('details', { class: 'more' }, andMore(rest.length), table(rest)) : []);
}

// First who stays, then who leaves last; of one round, by score.
function byLeaving(numbers, visits) {
  const placeOf = (one) => {
    const last = visits.findLastIndex((visit) => visit.scores.has(one));
    if (last < 0) return { left: -1, score: 0n };
    const stays = !visits[last].split.rejected.includes(one);
    return { left: stays ? visits.length : last, score: visits[last].scores.get(one) };
  };
  const places = new Map(numbers.map((one) => [one, placeOf(one)]));
  return [...numbers].sort((one, other) => {
    const [a, b] = [places.get(one), places.get(other)];
    if (a.left !== b.left) return b.left - a.left;
    if (a.score !== b.score) return a.score < b.score ? 1 : -1;
    return one - other;
  });
}

function drawCell(visit, one, least, most) {
  if (!visit.scores.has(one)) return element('td', { class: 'gone' }, '');
  const score = visit.scores.get(one);
  const { rejected, elected } = visit.split;
  const fate = rejected.includes(one) ? 'rejected' : elected.includes(one) ? 'elected' : '';
  const line = [element('span', { class: 'score' }, score.toLocaleString('en'))];
  if (fate) line.push(' ', element('span', { class: 'fate' }, fate === 'rejected' ? '✕ rejected' : '✓ elected'));
  return element('td', fate ? { class: fate } : {},
    element('div', { class: 'line' }, line), drawBar(score, least, most));
}

// A bar from 0 to the score, among all from the least to the greatest.
function drawBar(score, least, most) {
  const width = most > least ? most - least : 1n;
  const at = (number) => Number((number - least) * 1000n / width);
  const [left, right] = [at(score < 0n ? score : 0n), at(score > 0n ? score : 0n)];
  return drawing('svg', {
    class: 'bar', viewBox: '0 0 1000 10', preserveAspectRatio: 'none', 'aria-hidden': 'true' },
  drawing('rect', { x: left, y: 0, width: Math.max(0, right - left), height: 10 }));
}

// ---- pairs

function drawPairs({ rows, names, winner }) {
  const numbers = rows.map((_, i) => i + 1);
  const told = winner === 'none'
    ? element('p', {}, 'There is no Condorcet winner: nobody wins against each other alternative in a duel.')
    : element('p', {}, element('strong', {}, toldAlternative(Number(winner), names)),
      ' is the Condorcet winner: against each other alternative, more voters prefer it than not.');
  const heads = numbers.map((it) => element('th', { scope: 'col' }, toldAlternative(it, names)));
  const body = numbers.map((one) => element('tr', {}, element('th', { scope: 'row' }, toldAlternative(one, names)),
    numbers.map((other) => drawDuel(rows, one - 1, other - 1))));
  return [told,
    element('p', {}, 'Each row says how many voters prefer its alternative to that of the column, and by how many they '
      + 'outnumber the others. A win has the mark ▲.'),
    element('div', { class: 'wide', tabindex: '0', role: 'group', 'aria-label': 'Duels' },
      element('table', { class: 'pairs' }, element('thead', {}, element('tr', {}, element('td', {}, ''), heads)),
        element('tbody', {}, body)))];
}

function drawDuel(rows, one, other) {
  if (one === other) return element('td', { class: 'self' }, '–');
  const margin = rows[one][other] - rows[other][one];
  const digits = (number) => number.toLocaleString('en');
  const by = margin > 0n ? `+${digits(margin)}` : margin < 0n ? `−${digits(-margin)}` : '±0';
  return element('td', margin > 0n ? { class: 'win' } : {},
    `${margin > 0n ? '▲ ' : ''}${digits(rows[one][other])} `, element('span', { class: 'margin' }, by));
}
