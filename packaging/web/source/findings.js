// What holds of the rule on every profile: the properties, grouped by what is found of each, a line each. What stands
// behind a line is drawn when it is unfolded. A worker of its own looks for cases against those that are open.

// so many cases are tried at each asking
const CASES = 20000;

const GROUPS = [
  { answer: 'always', kind: 'always', sign: '✓', heading: 'Always',
    says: 'These are true of this rule whoever votes and however: on every set of alternatives and every profile.' },
  { answer: 'not always', kind: 'never', sign: '✗', heading: 'Not always',
    says: 'These are false of this rule: there are ballots on which it does otherwise.' },
  { answer: 'open', kind: 'open', sign: '?', heading: 'Open',
    says: 'Of these nothing is said: they have no derivation, and no case against them is known here.' }];

// What is known of a rule of the cookbook beside its derivations: laws, and cases against properties.
function knownOf(rule) {
  return KNOWN.cookbook.find((one) => one.term === rule) || { name: '', laws: {}, cases: {} };
}

// The finding of a property: always, not always or open, and by what. Whatever else comes to answer of properties is
// asked here. `cases` has those that were found since the rule was typed.
function findingOf(found, known, cases) {
  const { property } = found;
  const law = known.laws[property];
  if (found.holds) return { answer: 'always', by: 'derivation' };
  if (law) return { answer: law === 'true' ? 'always' : 'not always', by: 'law', name: known.name };
  const shown = cases.get(property) || known.cases[property];
  return shown ? { answer: 'not always', by: 'case', shown } : { answer: 'open' };
}

class Findings {
  // `engine` counts, `searcher` looks for cases, and `load` is called with ballots that the reader wants to have.
  constructor(place, engine, searcher, load) {
    Object.assign(this, { place, engine, searcher, load, report: null, rule: '', cases: new Map(), seed: 1 });
    // where it is told what comes of looking for cases against all that is open; it stays while lines are drawn anew
    this.told = element('div', { class: 'search', 'aria-live': 'polite' });
  }

  // Draws the findings of a report, where its rule is another one than that of the last.
  show(report, rule) {
    if (this.report && report.rule === this.report.rule) return;
    this.searcher.stop();
    Object.assign(this, { report, rule, cases: new Map() });
    fill(this.told);
    this.draw();
  }

  // Each property with what is found of it.
  get all() {
    const known = knownOf(this.report.rule);
    return this.report.findings.map((found) => ({ ...found, ...findingOf(found, known, this.cases) }));
  }

  draw() {
    const held = this.place.contains(document.activeElement) ? document.activeElement : null;
    const unfolded = [...this.place.querySelectorAll('.finding > details[open]')].map((it) => (
      it.parentElement.dataset.property));
    const { all } = this;
    const groups = GROUPS.map((group) => this.group(group, all.filter((it) => it.answer === group.answer)));
    fill(this.place, this.head(all), groups);
    for (const property of unfolded) {
      const line = this.lineOf(property);
      if (line) line.firstChild.open = true;
    }
    if (held) this.holdLike(held);
  }

  // Gives the focus to what stands where this stood before all was drawn anew.
  holdLike(held) {
    const line = held.closest('.finding');
    const again = line && this.lineOf(line.dataset.property);
    if (again) again.querySelector('summary').focus();
    else (this.place.querySelector('.look-all') || this.place.querySelector('summary')).focus({ preventScroll: true });
  }

  head(all) {
    const count = (answer) => all.filter((it) => it.answer === answer).length;
    return element('p', {}, `Of ${all.length} properties ${count('always')} are always true of this rule, `
      + `${count('not always')} aren't, and ${count('open') || 'none'} are open.`);
  }

  lineOf(property) {
    return this.place.querySelector(`.finding[data-property="${property}"]`);
  }

  group({ answer, kind, sign, heading, says }, members) {
    if (!members.length) return [];
    return [
      element('h3', {}, `${heading} `, element('span', { class: 'count' }, members.length)),
      element('p', { class: 'kind' }, says), answer === 'open' ? this.looking(members) : [],
      element('ul', { role: 'list', class: 'findings' }, members.map((found) => this.line(found, kind, sign)))];
  }

  line(found, kind, sign) {
    const { property } = found;
    const summary = element('summary', {}, element('span', { 'aria-hidden': 'true', class: 'sign' }, sign),
      element('span', { class: 'found' }, ` ${found.answer}`), ' ',
      element('span', {}, element('b', {}, termLabel(property)), ' ', element('code', {}, property)), ' ',
      element('span', { class: 'question' }, questionOf(property)));
    const place = element('div', {});
    const details = element('details', {}, summary, place);
    details.addEventListener('toggle', () => details.open && !place.firstChild && fill(place, this.why(found)));
    return element('li', { class: `finding ${kind}`, 'data-property': property }, details);
  }

  // What stands behind the finding of a property.
  why(found) {
    if (found.by === 'derivation') return drawDerivation(found);
    if (found.by === 'law') {
      return element('p', {}, `By a law on ${found.name} that is proved beside the rules of derivation.`);
    }
    if (found.by === 'case') return new Case(found.shown, this.rule, this.engine, this.load).drawn();
    return [drawReasons(found), this.lookingFor(found.property)];
  }

  // ---- looking for cases

  // The button that has cases looked for against all that is open, and the place where it is told what comes of it.
  looking(members) {
    const wanted = members.map((it) => it.property).filter((property) => property !== 'neut');
    if (!wanted.length) return [];
    const button = element('button', {
      type: 'button', class: 'look-all', onclick: () => this.lookAll(wanted) }, 'Look for cases against these');
    return [element('p', { class: 'row' }, button), this.told];
  }

  async lookAll(wanted) {
    const { report } = this;
    for (const property of wanted) {
      if (this.cases.has(property)) continue;
      const ended = await this.look(property, this.told);
      if (ended || this.report !== report) return;
    }
    const open = this.all.filter((it) => it.answer === 'open').length;
    const still = open === 1 ? 'one is' : `${open} are`;
    const done = open === 0 ? 'The search is done: there is a case against each.'
      : `The search is done: ${still} still open. That no case came up proves nothing.`;
    fill(this.told, done);
    say(done);
  }

  lookingFor(property) {
    if (property === 'neut') return [];
    const place = element('div', { class: 'search', 'aria-live': 'polite' });
    const button = element('button', {
      type: 'button', class: 'look', onclick: () => this.look(property, place) }, 'Look for a case against it');
    return [element('p', { class: 'row' }, button), place];
  }

  // Looks for a case against a property. Whether the search was ended is the answer.
  async look(property, place) {
    const { report, rule } = this;
    this.searcher.stop();
    const stop = element('button', { type: 'button', onclick: () => this.searcher.stop() }, 'Stop');
    const tell = (tried) => fill(place, element('code', {}, property), `: ${numbered(tried, 'case')}, and none of them `
      + 'is against it. ', stop);
    tell(0);
    const seed = this.seed;
    this.seed += 1;
    try {
      const answer = await this.searcher.search(rule, property, seed, CASES, tell);
      if (this.report !== report) return true;
      if (answer.found) this.found(property, answer);
      else fill(place, this.none(answer, property, place));
      return false;
    } catch (ended) {
      fill(place, `The search ended: ${ended.message}.`);
      return true;
    }
  }

  found(property, { found, tried }) {
    this.cases.set(property, found);
    this.draw();
    say(`A case against ${property} came up within ${numbered(tried, 'case')}.`);
  }

  none({ tried, met }, property, place) {
    return [
      element('p', {}, `None of ${numbered(tried, 'case')} is against it; it speaks of ${met.toLocaleString('en')} of `
        + 'them. This proves nothing: the rule may lack the property all the same.'),
      element('button', { type: 'button', onclick: () => this.look(property, place) }, 'Look on')];
  }
}
