// The ways about the page: from its head to the answer, and in the bar from the ballots to the answer and back.

class Ways {
  constructor(skip, jump) {
    this.jump = jump;
    this.seen = { inputs: true, answers: false };
    skip.addEventListener('click', () => this.go('answers'));
    jump.addEventListener('click', () => this.go(this.seen.answers ? 'inputs' : 'answers'));
    this.watch(at('ballots-part'), 'inputs');
    this.watch(at('live'), 'answers');
  }

  watch(part, which) {
    const observer = new IntersectionObserver((entries) => {
      this.seen[which] = entries.at(-1).isIntersecting;
      this.offer();
    });
    observer.observe(part);
  }

  // Offers the way to what isn't in sight.
  offer() {
    const { inputs, answers } = this.seen;
    this.jump.hidden = inputs && answers;
    this.jump.textContent = answers ? 'To the ballots' : 'To the answer';
  }

  go(where) {
    const title = at(where === 'answers' ? 'result-title' : 'ballots-title');
    title.tabIndex = -1;
    title.scrollIntoView({ block: 'start' });
    title.focus({ preventScroll: true });
  }
}
