// The page: what is typed is answered by the worker, the newest first, and drawn.

const KNOWN = JSON.parse(at('known').textContent);

// after so many milliseconds a call can be stopped by the reader, and is ended where something newer is wanted
const LONG = 250;
const LONG_SAID = 'This takes longer ..';

// a longer explanation isn't fetched from the module
const MOST_EXPLAINED = 4000000;

class Workbench {
  constructor(module) {
    this.engine = new Engine(module);
    this.findings = new Findings(at('findings'), this.engine, new Engine(module), (text) => this.ballots.set(text));
    this.rule = new Input(at('rule'), at('rule-note'), () => this.changed());
    this.ballots = new Input(at('ballots'), at('ballots-note'), () => this.changed());
    this.table = new BallotTable(at('table'), (text) => this.ballots.set(text), say);
    this.certificates = new Certificates(this.engine, this.rule);
    Object.assign(this, { wanted: 0, running: false, since: 0, drawnRule: null, loading: false, times: null });
    // a promise of the newest answer
    this.settled = Promise.resolve();
    this.wire();
  }

  wire() {
    takeFiles(at('rule-part'), at('rule-file'), (name, bytes) => this.rule.take(name, bytes));
    takeFiles(at('ballots-part'), at('ballots-file'), (name, bytes) => this.ballots.take(name, bytes));
    at('rule-save').addEventListener('click', () => save('rule.vir', this.rule.bytes));
    at('ballots-save').addEventListener('click', () => save('ballots.soc', this.ballots.bytes));
    at('stop').addEventListener('click', () => this.engine.stop('stopped by you'));
    at('link-copy').addEventListener('click', () => this.copyLink());
    at('words').addEventListener('toggle', () => at('meanings').firstChild || fill(at('meanings'), drawMeanings()));
    offerExamples(at('cookbook'), KNOWN.cookbook, 'a rule of your own', (one) => this.setRule(one.text));
    offerExamples(at('profiles'), KNOWN.profiles, 'ballots of your own', (one) => this.ballots.set(one.text));
    document.addEventListener('click', showMeaning);
    new Ways(at('skip'), at('jump'));
    window.addEventListener('hashchange', () => this.loadLink());
    window.addEventListener('beforeprint', () => this.mirror());
  }

  // Puts the rule and the ballots in, and answers once.
  load({ rule, ballots }) {
    this.loading = true;
    this.setRule(rule);
    this.ballots.set(ballots);
    this.loading = false;
    this.changed();
  }

  // Puts a rule in, and has its last definition in sight.
  setRule(text) {
    this.rule.set(text);
    this.rule.reveal(lastDefinition(text));
  }

  loadLink() {
    const given = readLink();
    if (given) this.load(given);
  }

  async copyLink() {
    try {
      await navigator.clipboard.writeText(location.href);
      at('link-note').textContent = 'The link is copied.';
    } catch {
      at('link-note').textContent = 'The browser doesn\'t let the page copy: the address bar has the link.';
    }
  }

  // For a printed page, which shows the texts whole.
  mirror() {
    for (const [id, input] of [['rule-printed', this.rule], ['ballots-printed', this.ballots]]) {
      at(id).textContent = input.text === null ? `(the file ${input.file.name})` : input.text;
    }
  }

  changed() {
    if (this.loading) return;
    this.wanted += 1;
    if (this.running) {
      if (performance.now() - this.since > LONG) this.engine.stop('something newer is wanted');
      return;
    }
    this.settled = this.run();
  }

  // Answers until what is answered is the newest.
  async run() {
    this.running = true;
    for (let done = 0; done !== this.wanted;) {
      done = this.wanted;
      this.since = performance.now();
      const shown = setTimeout(() => this.tellLong(), LONG);
      try {
        await this.answer(() => done !== this.wanted);
      } catch (stop) {
        this.tellEnded(stop);
      }
      clearTimeout(shown);
      if (!at('stop').hidden && at('state').textContent === LONG_SAID) at('state').textContent = '';
      at('stop').hidden = true;
    }
    this.running = false;
  }

  tellLong() {
    at('stop').hidden = false;
    at('state').textContent = LONG_SAID;
  }

  tellEnded(stop) {
    at('state').textContent = `There is no answer: ${stop.message}. Any change has it counted again.`;
    tellStale(true);
  }

  get files() {
    return [['rule', this.rule.bytes], ['ballots', this.ballots.bytes]];
  }

  async answer(isOld) {
    const { files } = this;
    this.tellState();
    const answer = await this.engine.call(['report', 'rule', 'ballots'], files);
    if (isOld()) return;
    const said = decoder.decode(answer.out);
    this.tellFaults(answer, files);
    if (answer.status === 3) await this.judgeBallots(files);
    this.tellWhetherAnswered(answer);
    if (answer.status !== 0) return;
    const start = performance.now();
    const report = readReport(said);
    this.drawReport(report);
    this.table.show(this.ballots.text);
    this.tellFigures(answer, performance.now() - start);
    await this.explain(report, files, isOld);
  }

  // The state behind the #, and which examples these are.
  tellState() {
    const linked = writeLink(this.rule.text, this.ballots.text);
    at('link-note').textContent = linked ? 'The address of this page holds the rule and the ballots.'
      : 'These are too long for a link: save them as files.';
    at('link-copy').disabled = !linked;
    chooseExample(at('cookbook'), KNOWN.cookbook, this.rule.text);
    chooseExample(at('profiles'), KNOWN.profiles, this.ballots.text);
    const known = KNOWN.cookbook.find((one) => one.text === this.rule.text);
    at('about').textContent = known ? known.about : '';
  }

  tellFaults(answer, files) {
    const fault = readFault(decoder.decode(answer.err));
    const of = answer.status === 3 ? 'rule' : answer.status === 4 ? 'ballots' : '';
    for (const [name, bytes] of files) this.tellFault(name, name === of ? fault : null, bytes);
    if (answer.status === 4) this.table.show(null);
  }

  // Shows a fault below the box that it is in and in the bar, and has its line in sight; or takes it away.
  tellFault(name, fault, bytes) {
    const input = name === 'rule' ? this.rule : this.ballots;
    const goThere = (place) => input.goTo(place);
    fill(at(`${name}-fault`), fault ? drawFault(fault, bytes, goThere) : []);
    fill(at(`${name}-told`), fault ? drawFaultShort(fault, bytes, name, goThere) : []);
    input.box.setAttribute('aria-invalid', String(Boolean(fault)));
    if (fault && !input.isTyped) input.reveal(placeOf(fault, bytes).from);
  }

  // Says whether what stands below is the answer, the last good one, or none yet.
  tellWhetherAnswered({ status, err }) {
    const isAnswered = status === 0 || !document.body.classList.contains('unanswered');
    document.body.classList.toggle('unanswered', !isAnswered);
    tellStale(status !== 0);
    const said = { 0: '', 3: '', 4: '', 7: 'There is too little memory for this. ' };
    const why = status in said ? said[status] : `${decoder.decode(err)} `;
    const below = isAnswered ? 'Below is the last good answer.' : 'No answer yet.';
    at('state').textContent = status === 0 ? '' : why + below;
  }

  // Where the rule is refused the program doesn't look at the ballots: so they are judged by themselves.
  async judgeBallots(files) {
    const answer = await this.engine.call(['position', '1', 'max', 'ballots'], files.slice(1));
    const fault = answer.status === 4 ? readFault(decoder.decode(answer.err)) : null;
    this.tellFault('ballots', fault, files[1][1]);
    this.table.show(fault ? null : this.ballots.text);
  }

  drawReport(report) {
    const { alternatives, voters } = report;
    fill(at('result'), drawSets(report),
      element('p', { class: 'kind' }, `${numbered(alternatives, 'alternative')}, ${numbered(voters, 'voter')}.`));
    fill(at('facts'), drawFacts(report, null, null));
    fill(at('outcome'), saidResult(report));
    this.findings.show(report, decoder.decode(this.rule.bytes));
    if (report.rule === this.drawnRule) return;
    this.drawnRule = report.rule;
    fill(at('term'), drawTerm(report.term));
    this.certificates.offer(report.findings);
  }

  tellFigures(answer, drawn) {
    this.times = { call: answer.milliseconds, drawn, memory: answer.memory };
    at('figures').textContent = `The last answer took ${answer.milliseconds.toFixed(2)} ms, and the module has `
      + `${(answer.memory / 1048576).toFixed(1)} MiB of memory.`;
  }

  // What stands below the result: the steps, the duels, and the rule simplified.
  async explain(report, files, isOld) {
    const explained = await this.engine.call(['explain', 'rule', 'ballots'], files, MOST_EXPLAINED);
    if (isOld()) return;
    let account = null;
    drawOptional('rounds', explained, (text) => {
      const visits = readVisits(text);
      account = accountOf(visits, report.term);
      return drawSteps(visits, report.term, report.names);
    });
    const few = report.alternatives <= TABLED;
    const pairs = few ? await this.engine.call(['pairs', 'ballots'], files.slice(1)) : { status: 2 };
    const winner = few ? null : await this.condorcetWinner(files[1]);
    if (isOld()) return;
    let known = { winner };
    drawOptional('pairs', pairs, (text) => {
      known = readPairs(text);
      const [told, note, table] = drawPairs(known);
      return [told, note, element('div', { class: 'duels' }, table, drawGraph(known))];
    });
    fill(at('facts'), drawFacts(report, known, account));
    const simple = await this.engine.call(['simplify', 'rule'], files.slice(0, 1));
    if (simple.status === 0) fill(at('simple'), this.drawSimple(decoder.decode(simple.out), report.rule));
  }

  // The Condorcet winner where there are too many alternatives for a table of pairs, or none.
  async condorcetWinner(ballots) {
    const answer = await this.engine.call(['count', 'rule', 'ballots'], [['rule', 'c = max(condorcet);'], ballots]);
    const deferred = answer.status === 0 ? readSplit(new Lines(decoder.decode(answer.out))).deferred : [];
    return deferred.length === 1 ? String(deferred[0]) : 'none';
  }

  drawSimple(text, rule) {
    const [first, ...steps] = text.trim().split('\n');
    const term = first.replace(/^simple /, '');
    if (term === rule) return [element('p', {}, 'No equation makes this rule shorter.')];
    const take = () => this.rule.set(`simple = ${term};\n`);
    return [
      element('p', {}, 'This means the same: ', termCode(term)),
      element('p', {}, `By ${numbered(steps.length, 'equation')}: `, steps.map((step, i) => [i ? ', ' : '',
        element('code', {}, step.split(' ')[0]), ` at place ${step.split(' ')[1]}`])),
      element('button', { type: 'button', onclick: take }, 'Take it as the rule')];
  }
}

// Draws what a command prints, or hides its place where the module has no such command.
function drawOptional(id, answer, draw) {
  at(`${id}-part`).hidden = answer.status === 2;
  if (answer.status === 2) return;
  if (answer.tooLong) fill(at(id), `It takes ${numbered(answer.tooLong, 'byte')} to tell, and isn't drawn.`);
  else if (answer.status === 0) fill(at(id), draw(decoder.decode(answer.out)));
  else fill(at(id), decoder.decode(answer.err) || decoder.decode(answer.out));
}

// Marks what stands below as the last good answer.
function tellStale(isStale) {
  at('live').classList.toggle('stale', isStale);
  at('stale-note').hidden = !isStale;
  at('outcome').hidden = isStale;
}

function say(sentence) {
  fill(at('said'), sentence);
}

function offerExamples(select, examples, own, choose) {
  fill(select, element('option', { value: '' }, own), examples.map((one, i) => (
    element('option', { value: String(i) }, one.title))));
  select.addEventListener('change', () => select.value && choose(examples[Number(select.value)]));
}

function chooseExample(select, examples, text) {
  const known = examples.findIndex((one) => one.text === text);
  select.value = known < 0 ? '' : String(known);
}

// A link to what a word means opens its place, and leaves the address as it is.
function showMeaning(event) {
  const link = event.target.closest('a[href^="#property-"], a[href^="#rule-"]');
  if (!link) return;
  event.preventDefault();
  at('words').open = true;
  if (!at('meanings').firstChild) fill(at('meanings'), drawMeanings());
  const target = at(link.getAttribute('href').slice(1));
  if (!target) return;
  for (const marked of document.querySelectorAll('.marked')) marked.classList.remove('marked');
  target.classList.add('marked');
  target.tabIndex = -1;
  target.scrollIntoView({ block: 'center' });
  target.focus({ preventScroll: true });
}

async function begin() {
  try {
    globalThis.workbench = new Workbench(await packedModule());
  } catch (fault) {
    document.body.classList.add('without');
    at('state').textContent = '';
    fill(at('broken'), element('p', {}, element('strong', {}, 'This browser can\'t run the program in this page. '),
      `${fault.message} `, 'The program itself runs without a browser.'));
    return;
  }
  const first = {
    rule: KNOWN.cookbook.find((one) => one.name === 'instant-runoff').text,
    ballots: KNOWN.profiles.find((one) => one.name === 'five-ways').text };
  globalThis.workbench.load(readLink() || first);
}

begin();
