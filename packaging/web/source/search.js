// The search for a counterexample: small profiles are drawn, and of a property on lifts all lifts of one line are
// tried. Whether a case violates the property is judged by the module alone.

const ON_LIFTS = ['dli', 'imono', 'dimono', 'dmono', 'mono'];

// how large a drawn profile is at most
const MOST_DRAWN = { alternatives: 4, lines: 5, weight: 6 };

// Numbers that a seed draws, the same at each search.
class Draws {
  constructor(seed) {
    this.state = BigInt(seed);
  }

  // A number from the least to the greatest.
  number(least, greatest) {
    this.state = (this.state * 6364136223846793005n + 1442695040888963407n) & ((1n << 64n) - 1n);
    return least + Number((this.state >> 33n) % BigInt(greatest - least + 1));
  }

  order(alternatives) {
    const order = [];
    for (let alternative = 1; alternative <= alternatives; alternative++) {
      order.splice(this.number(0, order.length), 0, alternative);
    }
    return order;
  }

  profile() {
    const alternatives = this.number(2, MOST_DRAWN.alternatives);
    const lines = Array.from({ length: this.number(1, MOST_DRAWN.lines) }, () => (
      { weight: this.number(1, MOST_DRAWN.weight), order: this.order(alternatives) }));
    return { alternatives, lines };
  }
}

function profileText({ alternatives, lines }) {
  const votes = lines.map(({ weight, order }) => `${weight}: ${order.join(',')}\n`);
  return `# NUMBER ALTERNATIVES: ${alternatives}\n${votes.join('')}`;
}

// A case: a profile, and for a property on lifts who is raised where, on which line, and to which place.
function lifted({ profile, line, from, to }) {
  const order = [...profile.lines[line].order];
  order.splice(to, 0, ...order.splice(from, 1));
  const lines = profile.lines.map((it, i) => (i === line ? { weight: it.weight, order } : it));
  return { alternatives: profile.alternatives, lines };
}

function* casesOf(profile, onLifts) {
  if (!onLifts) {
    yield { profile };
    return;
  }
  for (let line = 0; line < profile.lines.length; line++) {
    for (let from = 1; from < profile.alternatives; from++) {
      for (let to = 0; to < from; to++) yield { profile, line, from, to };
    }
  }
}

// Smaller cases: a line less, an alternative less, or a smaller weight.
function* smallerCases(one) {
  const { profile, line } = one;
  for (let i = 0; i < profile.lines.length; i++) {
    if (i === line || profile.lines.length === 1) continue;
    const lines = profile.lines.filter((_, at) => at !== i);
    yield { ...one, profile: { ...profile, lines }, line: line === undefined || i > line ? line : line - 1 };
  }
  for (let gone = 1; gone <= profile.alternatives; gone++) yield* withoutAlternative(one, gone);
  for (let i = 0; i < profile.lines.length; i++) {
    const { weight, order } = profile.lines[i];
    for (const less of new Set([1, weight >> 1, weight - 1])) {
      if (less < 1 || less >= weight) continue;
      const lines = profile.lines.map((it, at) => (at === i ? { weight: less, order } : it));
      yield { ...one, profile: { ...profile, lines } };
    }
  }
}

// The case without an alternative, where the one that is raised stays and is raised still.
function* withoutAlternative({ profile, line, from, to }, gone) {
  if (profile.alternatives === 1) return;
  const rest = (order) => order.filter((it) => it !== gone).map((it) => (it > gone ? it - 1 : it));
  const lines = profile.lines.map(({ weight, order }) => ({ weight, order: rest(order) }));
  const smaller = { profile: { alternatives: profile.alternatives - 1, lines } };
  if (line === undefined) {
    yield smaller;
    return;
  }
  const order = profile.lines[line].order;
  if (order[from] === gone) return;
  const place = order.indexOf(gone);
  const [newFrom, newTo] = [from - (place < from ? 1 : 0), to - (place < to ? 1 : 0)];
  if (newTo < newFrom) yield { ...smaller, line, from: newFrom, to: newTo };
}

class Search {
  constructor(calls, rule, property, seed) {
    this.calls = calls;
    this.rule = utf8.encode(rule);
    this.property = property;
    this.onLifts = ON_LIFTS.includes(property);
    this.draws = new Draws(seed);
    this.tried = 0;
    this.met = 0;
  }

  // Whether the module says that the case violates the property.
  violates(one) {
    const files = [['rule', this.rule], ['first', profileText(one.profile)]];
    const words = ['refute', 'rule', this.property, 'first'];
    if (this.onLifts) {
      files.push(['second', profileText(lifted(one))]);
      words.push('second', String(one.profile.lines[one.line].order[one.from]));
    }
    const answer = this.calls.call(words, files);
    if (answer.status > 1) throw new Stopped(new TextDecoder().decode(answer.err).trim());
    const said = new TextDecoder().decode(answer.out).trim();
    this.tried += 1;
    if (said !== 'not violated: PremiseNotMet') this.met += 1;
    return said === 'violated';
  }

  // A case that violates the property, made as small as it can be, or null where none of so many more does.
  run(cases, tell) {
    const end = this.tried + cases;
    while (this.tried < end) {
      for (const one of casesOf(this.draws.profile(), this.onLifts)) {
        if (this.violates(one)) return this.shrunk(one);
      }
      tell(this.tried);
    }
    return null;
  }

  shrunk(one) {
    for (const smaller of smallerCases(one)) {
      if (this.violates(smaller)) return this.shrunk(smaller);
    }
    return one;
  }
}

// A case as the page shows it: texts of profiles, and who is raised.
function told(one) {
  if (one.line === undefined) return { first: profileText(one.profile) };
  const alternative = one.profile.lines[one.line].order[one.from];
  return { first: profileText(one.profile), second: profileText(lifted(one)), alternative, line: one.line + 1 };
}
