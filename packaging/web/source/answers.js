// What the program prints, as data.

const decoder = new TextDecoder();

// The lines of a text, and how far they are read.
class Lines {
  constructor(text) {
    this.lines = text.split('\n');
    this.lines.pop();
    this.next = 0;
  }

  more() {
    return this.next < this.lines.length;
  }

  begins(start) {
    return this.more() && this.lines[this.next].startsWith(start);
  }

  // What stands in the next line behind this start, which it has to have.
  after(start) {
    if (!this.begins(start)) throw new Error(`no line '${start}' where one has to be`);
    this.next += 1;
    return this.lines[this.next - 1].slice(start.length);
  }
}

function numbersOf(text) {
  return text.split(' ').filter(Boolean).map(Number);
}

function readSplit(lines) {
  return {
    elected: numbersOf(lines.after('elected:')), rejected: numbersOf(lines.after('rejected:')),
    deferred: numbersOf(lines.after('deferred:')) };
}

// The number of alternatives and of voters, and the names.
function readHead(lines) {
  const alternatives = Number(lines.after('alternatives '));
  const head = { alternatives, voters: BigInt(lines.after('voters ')), names: {} };
  while (lines.begins('name ')) {
    const [, number, name] = /^(\d+): (.*)$/s.exec(lines.after('name '));
    head.names[number] = name;
  }
  return head;
}

function readReport(text) {
  const lines = new Lines(text);
  const rule = lines.after('rule ');
  const term = readTerm(rule);
  const report = { rule, term, ...readHead(lines), split: readSplit(lines), findings: [], text };
  while (lines.more()) report.findings.push(readFinding(lines, term));
  return report;
}

// A property that holds, with the text of its derivation, or one that isn't derived, with the reasons.
function readFinding(lines, term) {
  if (lines.begins('holds ')) {
    const [property, text] = lines.after('holds ').split(' ');
    const [rule] = /^[a-z0-9-]+/.exec(text);
    return { property, holds: true, term, text, rule, size: 1 + (text.match(/[(,]/g) || []).length };
  }
  const property = lines.after('underived ');
  const reasons = [];
  while (lines.begins('- ')) {
    const [rule, number, ...premise] = lines.after('- ').split(' ');
    if (rule !== 'no') reasons.push({ rule, number: Number(number), premise: readJudgement(premise.join(' ')) });
  }
  return { property, holds: false, reasons };
}

// The visits of an explanation: who was handed to which part of the rule, with what scores, and what became of them.
function readVisits(text) {
  const [, ...paragraphs] = text.split('\n\n');
  return paragraphs.map((paragraph) => readVisit(new Lines(paragraph.replace(/\n?$/, '\n'))));
}

function readVisit(lines) {
  const place = Number(/^\d+/.exec(lines.after('at '))[0]);
  const of = numbersOf(lines.after('of:'));
  const pairs = lines.begins('scores:') ? lines.after('scores:').split(' ').filter(Boolean) : null;
  const scored = (pair) => [Number(pair.split('=')[0]), BigInt(pair.split('=')[1])];
  const scores = pairs && new Map(pairs.map(scored));
  return { place, of, scores, split: readSplit(lines) };
}

function readPairs(text) {
  const lines = new Lines(text);
  const pairs = { ...readHead(lines), rows: [] };
  while (lines.begins('prefer ')) {
    pairs.rows.push(lines.after('prefer ').split(': ')[1].split(' ').map(BigInt));
  }
  return { ...pairs, winner: lines.after('condorcet winner: ') };
}

// The fault of an answer: what it is of, its kind, and its place, a byte from 0 or a line from 1.
function readFault(text) {
  const found = /^(text|profile) refused: (\w+) at (?:byte|line) (\d+)/.exec(text);
  return found && { of: found[1], kind: found[2], place: Number(found[3]) };
}
