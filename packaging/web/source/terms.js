// Terms, derivations and properties as the program prints them: words with arguments in parentheses.

// what each word takes, in order
const TAKES = {
  elect: [], defer: [], plurality: [], pass: ['number', 'order'], drop: ['number', 'order'], max: ['score'],
  min: ['score'], below: ['score'], upto: ['score'], rev: ['part'], seq: ['part', 'part'], par: ['part', 'part'],
  loop: ['number', 'part'], until: ['number', 'part'] };

// The tree of a text without blanks: a word with arguments, each a tree, a number, or a list of numbers.
function readTree(text) {
  const tokens = text.match(/[A-Za-z][A-Za-z0-9_-]*|[0-9]+|[\][(),]/g) || [];
  let next = 0;
  const list = (close, read) => {
    const members = [read()];
    while (tokens[next++] === ',') members.push(read());
    if (tokens[next - 1] !== close) throw new Error(`not a printed text: ${text}`);
    return members;
  };
  const argument = () => {
    const token = tokens[next++] || '';
    if (/^[0-9]/.test(token)) return Number(token);
    if (token === '[') return list(']', () => Number(tokens[next++]));
    if (!/^[A-Za-z]/.test(token)) throw new Error(`not a printed text: ${text}`);
    if (tokens[next] !== '(') return { word: token, arguments: [] };
    next += 1;
    return { word: token, arguments: list(')', argument) };
  };
  const tree = argument();
  if (next !== tokens.length || tokens.join('') !== text) throw new Error(`not one tree: ${text}`);
  return tree;
}

// The term of a tree: a word, and the number, fixed order, score or parts that it takes.
function termOf(tree) {
  const takes = TAKES[tree.word];
  const given = tree.arguments && [...tree.arguments];
  if (!takes || !given) throw new Error('not a term');
  if (takes[1] === 'order' && given.length === 1) given.push([]);
  if (given.length !== takes.length) throw new Error(`${tree.word} takes another number of arguments`);
  const term = { word: tree.word, number: null, order: [], score: null, parts: [] };
  takes.forEach((kind, i) => {
    if (kind === 'number') term.number = given[i];
    else if (kind === 'order') term.order = given[i];
    else if (kind === 'score') term.score = given[i].word;
    else term.parts.push(termOf(given[i]));
  });
  term.text = headOf(term, term.parts.map((part) => part.text));
  return term;
}

function readTerm(text) {
  return termOf(readTree(text));
}

// The text of a term with these texts in the place of its parts'.
function headOf(term, parts) {
  const given = [];
  if (term.number !== null) given.push(String(term.number));
  if (term.order.length) given.push(`[${term.order.join(',')}]`);
  if (term.score) given.push(term.score);
  given.push(...parts);
  return given.length ? `${term.word}(${given.join(',')})` : term.word;
}
