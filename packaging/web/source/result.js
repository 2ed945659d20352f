// Who is elected, and the rule as a tree: drawn as the page of a report draws them.

// of a longer name this much is shown
const SHOWN = 200;

function alternativeName(number, names) {
  const name = names[number];
  if (name === undefined) return [element('span', { class: 'number' }, number)];
  const cut = name.length > SHOWN ? `… (${name.length.toLocaleString('en')} characters)` : '';
  return [
    element('span', { class: 'number' }, number), ' ', element('bdi', { class: 'name' }, name.slice(0, SHOWN)), cut];
}

// A short text for an alternative, for lists and for labels.
function labelOf(number, names) {
  const name = names[number];
  return name ? `${number} ${name.slice(0, 40)}` : String(number);
}

function drawSet(word, members, names) {
  const all = members.map((number) => element('li', {}, alternativeName(number, names)));
  const rest = all.slice(LISTED);
  return element('div', { class: word.toLowerCase() },
    element('h3', {}, `${word} `, element('span', { class: 'count' }, members.length.toLocaleString('en'))),
    all.length ? element('ul', { role: 'list' }, all.slice(0, LISTED)) : element('p', {}, 'nobody'),
    rest.length
      ? element('details', { class: 'more' }, andMore(rest.length), element('ul', { role: 'list' }, rest)) : []);
}

// The three sets. One that is empty is told in a line, but for the first.
function drawSets({ split, names }) {
  const rest = [['Rejected', split.rejected], ['Deferred', split.deferred]];
  const empty = rest.filter(([, members]) => !members.length).map(([word]) => `nobody is ${word.toLowerCase()}`);
  const line = empty.join(' and ');
  return [
    element('div', { class: 'sets' }, drawSet('Elected', split.elected, names),
      rest.filter(([, members]) => members.length).map(([word, members]) => drawSet(word, members, names))),
    line ? element('p', { class: 'kind' }, `${line[0].toUpperCase()}${line.slice(1)}.`) : []];
}

// The result in a sentence, for readers of the screen.
function saidResult({ split, names }) {
  const some = (members) => members.slice(0, 8).map((number) => labelOf(number, names)).join(', ');
  if (split.elected.length) return `Elected: ${some(split.elected)}.`;
  return split.deferred.length ? `Nobody is elected. Deferred: ${some(split.deferred)}.` : 'Nobody is elected.';
}

// ---- the rule

function gloss(term) {
  const order = term.order.length ? `${term.order.join(', ')}, then ascending` : 'of the numbers';
  const first = term.number === 1 ? 'the first' : `the first ${term.number}`;
  const values = { number: term.number, first, order, score: KNOWN.scores[term.score] || '' };
  return KNOWN.glosses[term.word].replace(/\{(\w+)\}/g, (_, key) => values[key]);
}

function drawNode(told, below) {
  const rest = below.length ? [element('ul', { role: 'list' }, below)] : [];
  return element('li', {}, element('div', { class: 'node' }, told), rest);
}

function drawPart(term) {
  const head = termCode(headOf(term, term.parts.map(() => '…')));
  return drawNode([head, ' ', element('span', { class: 'gloss' }, gloss(term))], term.parts.map(drawPart));
}

function drawTerm(term) {
  return element('div', { class: 'tree', tabindex: '0', role: 'group', 'aria-label': 'The rule as a tree' },
    element('ul', { role: 'list' }, drawPart(term)));
}
