// Certificates: one to save, and one to check.

class Certificates {
  constructor(engine, rule) {
    Object.assign(this, { engine, rule });
    at('certificate-save').addEventListener('click', () => this.save());
    this.input = new Input(at('certificate'), at('verdict'), () => this.check());
    takeFiles(at('certificate-part'), at('certificate-file'), (name, bytes) => this.take(bytes));
  }

  take(bytes) {
    at('check-part').open = true;
    this.input.set(textOf(bytes) === null ? decoder.decode(bytes) : textOf(bytes));
  }

  // Offers the properties that hold.
  offer(findings) {
    const kept = at('holding').value;
    const holding = findings.filter((found) => found.holds);
    fill(at('holding'), holding.map(({ property }) => (
      element('option', { value: property, selected: property === kept }, `${property}: ${termLabel(property)}`))));
    at('certificate-save').disabled = !holding.length;
  }

  async save() {
    const property = at('holding').value;
    const answer = await this.engine.call(['prove', 'rule', property], [['rule', this.rule.bytes]]);
    if (answer.status === 0) save(`${property.replace(/\W+/g, '-')}.cert`, answer.out);
    else at('state').textContent = `There is no certificate: ${decoder.decode(answer.err).trim()}`;
  }

  async check() {
    const { bytes } = this.input;
    if (!bytes.length) {
      fill(at('verdict'));
      return;
    }
    const answer = await this.engine.call(['check', 'certificate'], [['certificate', bytes]]).catch(() => null);
    if (answer) fill(at('verdict'), this.verdict(answer, bytes));
  }

  verdict(answer, bytes) {
    const [said, fault] = [decoder.decode(answer.out).trim(), readFault(decoder.decode(answer.err))];
    const value = (key) => (new RegExp(`^${key} (.*)$`, 'm').exec(decoder.decode(bytes)) || ['', ''])[1];
    if (answer.status === 0) {
      return [element('p', { class: 'good' }, element('strong', {}, 'Accepted. '), termCode(value('term')), ' has ',
        propertyLink(value('property')), ' on every profile.')];
    }
    if (answer.status === 1) {
      const [, node, why] = /^refused node (\d+): (.*)$/.exec(said) || ['', '?', said];
      return [element('p', { class: 'bad' }, element('strong', {}, 'Refused. '),
        `Node ${node} of the derivation, counted from 0, is wrong: ${why}.`)];
    }
    return fault ? drawFault(fault, bytes, (place) => this.input.goTo(place)) : [decoder.decode(answer.err)];
  }
}
