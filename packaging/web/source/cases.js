// A case against a property: the ballots as columns, whom the rule elects on them, and the same behind a lift.

class Case {
  // `shown` has the text of a profile, and for a property on lifts a second one and who is raised in it.
  constructor(shown, rule, engine, load) {
    Object.assign(this, { shown, rule, engine, load });
    this.before = readBallots(shown.first);
    this.behind = shown.second === undefined ? null : readBallots(shown.second);
  }

  drawn() {
    const { shown, before, behind } = this;
    const parts = [this.half(before, shown.first, 'On these ballots the rule ', 'Load these ballots')];
    if (behind) {
      const raised = element('strong', {}, shown.alternative);
      const said = ['When ', raised, ' gets more support from the marked voters, it '];
      parts.push(this.half(behind, shown.second, said, 'Load the second'));
    }
    return element('div', { class: 'case' }, parts);
  }

  half(ballots, text, said, words) {
    const outcome = element('p', { class: 'outcome' }, said, '…');
    this.count(text).then((result) => fill(outcome, said, result, '.'));
    return element('div', {}, this.columns(ballots), outcome,
      element('p', { class: 'row' }, element('button', { type: 'button', onclick: () => this.load(text) }, words)));
  }

  // Whom the rule elects, rejects and defers on ballots, in words.
  async count(text) {
    const files = [['rule', this.rule], ['ballots', text]];
    const answer = await this.engine.call(['count', 'rule', 'ballots'], files).catch(() => null);
    if (!answer || answer.status !== 0) return 'isn\'t counted';
    return splitSaid(readSplit(new Lines(decoder.decode(answer.out))));
  }

  // The lines as columns, the most preferred on top. The changed line and who is raised in it are marked.
  columns(ballots) {
    if (!ballots.lines.length) {
      return element('p', {}, `${numbered(ballots.alternatives, 'alternative')}, and nobody votes.`);
    }
    const changed = this.changedLine();
    const head = ballots.lines.map(({ count }, i) => element('th', { scope: 'col' },
      `${count} ${count === '1' ? 'voter' : 'voters'}`, i === changed ? ' ◀' : ''));
    const rows = Array.from({ length: ballots.alternatives }, (_, place) => element('tr', {},
      element('th', { scope: 'row' }, `${place + 1}.`),
      ballots.lines.map(({ order }, i) => this.cell(order, place, i))));
    return element('div', { class: 'wide', tabindex: '0', role: 'group', 'aria-label': 'Ballots' },
      element('table', { class: 'ballots' },
        element('thead', {}, element('tr', {}, element('td', {}, ''), head)), element('tbody', {}, rows)));
  }

  cell(order, place, line) {
    const isRaised = line === this.changedLine() && order[place] === this.shown.alternative;
    return element('td', isRaised ? { class: 'raised' } : {}, order[place], isRaised ? ' ▲' : '');
  }

  // The line in which the second profile differs from the first, or -1.
  changedLine() {
    if (!this.behind) return -1;
    return this.before.lines.findIndex(({ order }, i) => String(order) !== String(this.behind.lines[i].order));
  }
}

// A result in words: whom a rule elects, and else whom it leaves.
function splitSaid({ elected, rejected, deferred }) {
  const made = [['elects', elected], ['rejects', rejected], ['defers', deferred]];
  const said = made.filter(([, members]) => members.length).map(([verb, members]) => `${verb} ${members.join(', ')}`);
  return said.length ? said.join('; ') : 'has nobody to decide on';
}
