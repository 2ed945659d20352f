"""The profile that `drill` makes up, and the rules that it counts."""
from soc_files import SocFile
from terms import term


def drill_file(seed, lines, alternatives):
    state, made = seed, []
    for _ in range(lines):
        order = [1]
        for alternative in range(2, alternatives + 1):
            state = (6364136223846793005 * state + 1442695040888963407) % 2 ** 64
            order.insert((state >> 33) % alternative, alternative)
        made.append((1, tuple(order)))
    return SocFile(alternatives, made, [])


def drill_terms():
    winners = [term('max', 'borda'), term('max', 'copeland'), term('loop', 1, term('min', 'borda'))]
    return [term('plurality')] + [term('seq', winner, term('elect')) for winner in winners]
