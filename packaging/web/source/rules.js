// The rules of derivation, matched with judgements, so that each node of a derivation can be told what it concludes.
// The table is that of docs/RULES.md, in its words: m and n are the parts of a term, t is the whole or the other term,
// k a number and o a fixed order.

const LETTERS = ['k', 'm', 'n', 'o', 't', 'u'];

// A judgement: a property, and one term that has it, or two that are disjoint.
function readJudgement(text) {
  const [property, , first, , second] = text.split(' ');
  return { property, terms: [first, second].filter(Boolean).map(readTerm) };
}

function sameValue(a, b) {
  return String(a && a.text || a) === String(b && b.text || b);
}

// Whether a letter or a number of the table stands for this value. A letter stands for one value throughout.
function fitsValue(pattern, value, values) {
  if (pattern && LETTERS.includes(pattern.word)) {
    if (!(pattern.word in values)) values[pattern.word] = value;
    return sameValue(values[pattern.word], value);
  }
  return sameValue(pattern, value);
}

function fitsProperty(wanted, given, values) {
  const [pattern, tree] = [readTree(wanted), readTree(given)];
  return pattern.word === tree.word && pattern.arguments.length === tree.arguments.length
    && pattern.arguments.every((it, i) => fitsValue(it, tree.arguments[i], values));
}

// Whether a text like `loop(1,m)` of the table, or a letter, stands for this term.
function fitsTerm(text, term, values) {
  const pattern = readTree(text.replace(/`/g, ''));
  if (LETTERS.includes(pattern.word)) return fitsValue(pattern, term, values);
  if (pattern.word !== term.word || term.score) return false;
  const given = term.number === null ? [] : [term.number];
  if (term.word === 'pass' || term.word === 'drop') given.push(term.order);
  given.push(...term.parts);
  return given.length === pattern.arguments.length
    && pattern.arguments.every((it, i) => fitsValue(it, given[i], values));
}

function listed(text) {
  return [...text.matchAll(/`([^`]*)`/g)].map((found) => found[1]);
}

// Whether a term is any, is of a shape, or is one of the modules that are listed.
function fitsSubject(about, term, values) {
  if (about === 'any') {
    values.t = term;
    return true;
  }
  if (about.includes('(')) return fitsTerm(about, term, values);
  const [modules, scores] = about.split(' of ');
  return listed(modules).includes(term.word) && (!scores || listed(scores).includes(term.score));
}

function splitOf(text) {
  const found = /^`([^`]*)` of (.*)$/.exec(text);
  return [found[1], found[2].replace(/, with the same .*/, '')];
}

// What a rule asks for, to conclude this judgement: judgements, or null where it doesn't conclude it.
function premisesOf(rule, judgement) {
  const values = {};
  const [wanted, about] = splitOf(rule.conclusion);
  if (!fitsProperty(wanted, judgement.property, values)) return null;
  const fits = wanted === 'disj'
    ? about.split(' and ').every((subject, i) => fitsTerm(subject, judgement.terms[i], values))
    : fitsSubject(about, judgement.terms[0], values);
  return fits ? rule.premises.map((text) => premiseOf(text, values)) : null;
}

function premiseOf(text, values) {
  const [wanted, about] = splitOf(text);
  const property = wanted.replace(/\((\w)\)/, (_, letter) => `(${letter in values ? values[letter] : letter})`);
  return { property, terms: about.split(' and ').map((letter) => values[letter]) };
}

// The derivation of a printed text for this judgement, each node with what it concludes.
function derivationOf(tree, judgement) {
  const rule = KNOWN.rules[tree.word];
  const wanted = rule && premisesOf(rule, judgement);
  if (!wanted || wanted.length !== tree.arguments.length) throw new Error(`${tree.word} doesn't fit`);
  return { rule: tree.word, judgement, premises: tree.arguments.map((child, i) => derivationOf(child, wanted[i])) };
}
