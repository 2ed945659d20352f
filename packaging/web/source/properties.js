// Properties and their derivations in words and as trees, and what the words mean.

// of a longer term this much is shown beside a judgement on it
const TERM_SHOWN = 2000;

// in a derivation of more steps each one that stands in it several times is drawn once
const DRAWN_IN_FULL = 1000;

// a derivation of more steps isn't drawn at all
const MOST_STEPS = 20000;

function termLabel(property) {
  const number = /[0-9]+/.exec(property);
  const { term } = KNOWN.properties[property.split('(')[0]];
  return number ? term.replace(/\bk$/, number[0]) : term;
}

function propertyLink(text) {
  return element('a', { href: `#property-${text.split('(')[0]}` }, element('code', {}, text));
}

function ruleLink(name) {
  const why = KNOWN.rules[name];
  return element('a', { href: `#rule-${name}`, title: why && rulePlain(why) }, element('code', {}, name));
}

function rulePlain(rule) {
  return ruleSays(rule).replace(/`/g, '');
}

function ruleSays(rule) {
  const premises = rule.premises.length ? ` from ${rule.premises.join('; ')}` : '';
  return `Concludes ${rule.conclusion}${premises}. Why: ${rule.why}`;
}

function drawJudgement({ property, terms }) {
  const about = terms.flatMap(({ text }, i) => [...(i ? [' and '] : []), termCode(cutTerm(text))]);
  return element('span', { class: 'judgement' }, propertyLink(property), ' of ', about);
}

function cutTerm(text) {
  return text.length <= TERM_SHOWN ? text
    : `${text.slice(0, TERM_SHOWN)} … (${text.length.toLocaleString('en')} characters)`;
}

// A step and those that it stands on, these only where it isn't among the drawn ones.
function drawDerived(node, drawn) {
  const told = [drawJudgement(node.judgement), ' ', element('span', { class: 'by' }, 'by ', ruleLink(node.rule))];
  if (drawn && node.premises.length) {
    const key = `${node.rule} ${node.judgement.property} ${node.judgement.terms.map((term) => term.text).join(' ')}`;
    if (drawn.has(key)) return drawNode([told, ', as above'], []);
    drawn.add(key);
  }
  return drawNode(told, node.premises.map((premise) => drawDerived(premise, drawn)));
}

// Why a property holds: its derivation as a tree.
function drawDerivation(found) {
  return [
    element('p', {}, propertyLink(found.property), ` is derived in ${numbered(found.size, 'step')}, the last one by `,
      ruleLink(found.rule)),
    element('div', { class: 'tree' }, drawTree(found))];
}

function drawTree({ property, term, text, size }) {
  if (size > MOST_STEPS) return element('p', {}, 'It is too long to be drawn here. A certificate has it.');
  const derivation = derivationOf(readTree(text), { property, terms: [term] });
  const drawn = size <= DRAWN_IN_FULL ? null : new Set();
  const once = 'It is long, so that a step which stands in it several times is drawn once.';
  return [drawn ? element('p', {}, once) : [], element('ul', { role: 'list' }, drawDerived(derivation, drawn))];
}

function drawReason({ rule, number, premise }) {
  return element('li', {}, ruleLink(rule), ` would conclude it, but its premise ${number} has no derivation: `,
    drawJudgement(premise));
}

// Why a property isn't derived.
function drawReasons({ property, reasons }) {
  const fit = reasons.length;
  const said = fit === 0 ? 'no rule of derivation concludes it of a rule of this form.'
    : fit === 1 ? 'one rule of derivation fits, and lacks a premise.'
      : `${fit} rules of derivation fit, and each lacks a premise.`;
  return [element('p', {}, propertyLink(property), ` isn't derived: ${said}`),
    fit ? element('ul', {}, reasons.map(drawReason)) : []];
}

// The question that is asked of a property, as `defers(2)`. It is answered by always or by not always.
function questionOf(property) {
  const [word, number] = property.split(/[()]/);
  return KNOWN.questions[word].replaceAll('{number}', number === '1' ? 'one' : number);
}

// What the words mean, drawn once.
function drawMeanings() {
  const meaning = (id, code, term, says) => element('div', { id },
    element('dt', {}, element('code', {}, code), ' ', element('span', {}, term)), element('dd', {}, prose(says)));
  const properties = Object.entries(KNOWN.properties)
    .map(([word, it]) => meaning(`property-${word}`, it.text, it.term, it.says));
  const rules = Object.entries(KNOWN.rules)
    .map(([name, it]) => meaning(`rule-${name}`, name, `no. ${it.number}`, ruleSays(it)));
  const notes = Object.entries(KNOWN.notes).map(([heading, paragraphs]) => element('div', {
    class: 'note', id: heading === 'Disjoint terms' ? 'property-disj' : heading.toLowerCase() },
  element('h4', {}, heading), paragraphs.map((text) => element('p', {}, prose(text)))));
  return [
    element('p', {}, 'A property speaks of all finite sets of alternatives and all profiles on them; here A is the '
      + 'set, and it is the term that elects, rejects and defers on A. A Condorcet winner is preferred to each other '
      + 'alternative by more voters than prefer that one to it.'),
    element('dl', {}, properties), notes,
    element('h3', {}, 'Rules of derivation'),
    element('p', {}, 'In these m and n are the parts of a term in their order, t is the whole term or the other one, k '
      + 'is a number, o a fixed order, w the Condorcet winner, and x the one who is lifted.'),
    element('dl', {}, rules)];
}
