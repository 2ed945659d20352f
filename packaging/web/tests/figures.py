"""Measures the workbench: how large it is, how long a report takes in it, and one on 100,000 lines of 10 alternatives.

    packaging/web/tests/figures.py WORKBENCH.html

It prints milliseconds of the machine that it runs on: of each call the mean and the median of many.
"""
import json
import random
import statistics
import sys
from pathlib import Path

from opened import TOP, Workbench

TIMES = '''async (rule, ballots, count) => {
  const files = [['rule', new TextEncoder().encode(rule)], ['ballots', new TextEncoder().encode(ballots)]];
  const times = [];
  for (let i = 0; i < count; i++) {
    const answer = await workbench.engine.call(['report', 'rule', 'ballots'], files);
    if (answer.status !== 0) throw new Error(`status ${answer.status}`);
    times.push(answer.milliseconds);
  }
  return times;
}'''


def measured(page, rule, ballots, count):
    times = page.awaited(f'({TIMES})({json.dumps(rule)}, {json.dumps(ballots)}, {count})')
    return statistics.mean(times), statistics.median(times)


def drawn_time(page, rule):
    """How long the last report took from its text to the page."""
    page.value(f'workbench.rule.set({json.dumps(rule)})')
    page.settle()
    return page.value('workbench.times.drawn')


def large_profile():
    draws = random.Random(34)
    lines = ['# NUMBER ALTERNATIVES: 10\n']
    order = list(range(1, 11))
    for _ in range(100_000):
        draws.shuffle(order)
        lines.append(f'1: {",".join(map(str, order))}\n')
    return ''.join(lines)


def main():
    path = Path(sys.argv[1])
    five_ways = (TOP / 'examples/profiles/five-ways.soc').read_text(encoding='utf-8')
    rules = {rule.stem: rule.read_text(encoding='utf-8') for rule in sorted((TOP / 'examples/rules').glob('*.vir'))}
    print(f'size of the file: {path.stat().st_size:,} bytes')
    with Workbench(path) as page:
        print(page.value('navigator.userAgent'))
        means = []
        for name, rule in rules.items():
            mean, median = measured(page, rule, five_ways, 200)
            drawn = drawn_time(page, rule)
            means.append(mean)
            print(f'report, {name}, five-ways: mean {mean:.2f}, median {median:.2f}; then drawn in {drawn:.1f}')
        mean, median = measured(page, rules['copeland'], large_profile(), 7)
        print(f'report, copeland, 100,000 lines of 10: mean {mean:.0f}, median {median:.0f}')
    print(f'{path.stat().st_size:,} bytes; a report takes {min(means):.2f} to {max(means):.2f} ms in the mean, and '
          f'{median:.0f} ms on 100,000 lines of 10')


if __name__ == '__main__':
    main()
