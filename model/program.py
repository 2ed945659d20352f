#!/usr/bin/env python3
"""The model as a program: python3 model/program.py WORDS... prints and answers as ./virage WORDS... does."""
import sys

from benches import full_bench
from certificates import LONGEST_CERTIFICATE, certificate_text, read_certificate
from counting_code import listing_text
from derivations import Derivation, Deriver, derivation_text, first_bad_node, reasons_text
from devices import PIECE, Failed, FolderShelf, MemoryShelf, MemorySink, StreamSink, read_whole, write_whole
from drill import drill_file, drill_terms
from equations import simplified
from explanations import TooLong, explanation, pairs_text
from manifests import LONGEST_MANIFEST, read_manifest
from meaning import eliminate
from positions import positional_scores
from profiles import Tally
from properties import REPORTED, property_text
from rule_files import LONGEST_RULE_FILE, read_rule_file
from rules import Of
from small_cases import case_text, first_case, first_difference, size_text, votes_text
from soc_files import SocReader
from synthesis import first_fast
from terms import term_text
from tokens import Fault
from violations import judged_case
from words import COMMANDS, command_of

DONE, DENIED, USAGE, TEXT, PROFILE, READ, WRITE, UNSERVED = 0, 1, 2, 3, 4, 5, 6, 8

# the most bytes of what `explain` prints, with the lines that stand first
LONGEST_EXPLANATION = 268_435_456


class Stop(Exception):
    """Why there is no answer: the status, and the line for standard error."""

    def __init__(self, status, line):
        super().__init__(status, line)
        self.status, self.line = status, line


def set_text(name, members):
    return name + ':' + ''.join(f' {member}' for member in sorted(members)) + '\n'


def result_text(split):
    return ''.join(set_text(name, members) for name, members in split._asdict().items())


def one_line(split):
    return ' '.join(result_text(split).splitlines())


def finding_text(property, finding):
    if isinstance(finding, Derivation):
        return f'holds {property_text(property)} {derivation_text(finding)}\n'
    return f'underived {property_text(property)}\n{reasons_text(finding)}'


def profile_head(file):
    """The lines that say of what profile a text is."""
    names = b''.join(b'name %d: %s\n' % name for name in file.names)
    return f'alternatives {file.alternatives}\nvoters {file.voters()}\n'.encode() + names


def head_of(term, file):
    return f'rule {term_text(term)}\n'.encode() + profile_head(file)


def report_text(term, file, split):
    deriver = Deriver()
    findings = [finding_text(property, deriver.finding(property, term)) for property in REPORTED]
    return head_of(term, file) + (result_text(split) + ''.join(findings)).encode()


class Call:
    """Carries out commands with a shelf and a bench. Each answers a status and a text, or stops."""

    def __init__(self, shelf, bench):
        self.shelf, self.bench = shelf, bench

    def text(self, name, longest, read):
        """What `read` makes of the bytes of a file."""
        try:
            return read(read_whole(self.shelf, name, longest))
        except Failed:
            raise Stop(READ, 'read fault') from None
        except Fault as fault:
            raise Stop(TEXT, f'text refused: {fault.kind} at byte {fault.place}') from None

    def rule(self, name):
        """The last term of a rule file."""
        return self.text(name, LONGEST_RULE_FILE, read_rule_file)[-1][1]

    def soc(self, name):
        """The file of a profile; its fault is raised as it is. It is read on only as long as none is settled."""
        try:
            self.shelf.select(name)
            reader, piece = SocReader(), None
            while piece != b'':
                piece = self.shelf.read(PIECE)
                reader.feed(piece)
            return reader.finish()
        except Failed:
            raise Stop(READ, 'read fault') from None

    def accepted_soc(self, name):
        try:
            return self.soc(name)
        except Fault as fault:
            raise Stop(PROFILE, f'profile refused: {fault.kind} at line {fault.place}') from None

    def serve(self, term):
        unserved = self.bench.first_unserved(term)
        if unserved is not None:
            raise Stop(UNSERVED, f'no counter for {term_text(unserved)}')

    def run(self, term, file):
        profile = file.profile()
        return self.bench.run(term, profile.members, Tally(profile))

    def counted(self, rule, soc):
        term, file = self.rule(rule), self.accepted_soc(soc)
        self.serve(term)
        return term, file, self.run(term, file)

    def count(self, rule, soc):
        return DONE, result_text(self.counted(rule, soc)[2])

    def report(self, rule, soc):
        return DONE, report_text(*self.counted(rule, soc))

    def explain(self, rule, soc):
        term, file = self.rule(rule), self.accepted_soc(soc)
        profile, head = file.profile(), head_of(term, file)
        try:
            return DONE, head + explanation(term, profile.members, Tally(profile), LONGEST_EXPLANATION - len(head))
        except TooLong:
            return DENIED, 'explanation too long\n'

    def pairs(self, soc):
        file = self.accepted_soc(soc)
        profile = file.profile()
        return DONE, profile_head(file) + pairs_text(profile, Tally(profile)).encode()

    def prove(self, rule, property):
        term = self.rule(rule)
        finding = Deriver().finding(property, term)
        if isinstance(finding, Derivation):
            return DONE, certificate_text(term, property, finding)
        return DENIED, finding_text(property, finding)

    def check(self, certificate):
        term, property, derivation = self.text(certificate, LONGEST_CERTIFICATE, read_certificate)
        bad = first_bad_node(derivation, Of(property, term))
        return (DONE, 'accepted\n') if bad is None else (DENIED, 'refused node {}: {}\n'.format(*bad))

    def synth(self, size, wanted, modules):
        term = first_fast(modules, wanted, size)
        if term is None:
            return DENIED, f'none up to {size}\n'
        deriver = Deriver()
        findings = [finding_text(property, deriver.finding(property, term)) for property in wanted]
        return DONE, f'found {term_text(term)}\n' + ''.join(findings)

    def listing(self, rule):
        return DONE, listing_text(self.rule(rule))

    def drill(self, seed, lines, alternatives):
        for term in drill_terms():
            self.serve(term)
        file = drill_file(seed, lines, alternatives)
        profile = file.profile()
        tally = Tally(profile)
        text = f'lines {len(file.lines)} voters {file.voters()} alternatives {alternatives}\n'
        for term in drill_terms():
            elected = self.bench.run(term, profile.members, tally).elected
            text += term_text(term) + ' ' + set_text('elected', elected)
        return DONE, text

    def position(self, weights, elimination, soc):
        profile = self.accepted_soc(soc).profile()
        return DONE, result_text(eliminate(elimination, profile.members, positional_scores(weights, profile)))

    def refute(self, rule, property, before, after=None, alternative=None):
        term = self.rule(rule)
        profiles = [self.accepted_soc(name).profile() for name in (before, after) if name is not None]
        on_lift = [] if after is None else [profiles[1], alternative]
        verdict = judged_case(term, property, profiles[0], *on_lift)
        return (DONE, 'violated\n') if verdict == 'Violated' else (DENIED, f'not violated: {verdict}\n')

    def simplify(self, rule):
        term, steps = simplified(self.rule(rule))
        return DONE, f'simple {term_text(term)}\n' + ''.join(f'{name} {place}\n' for place, name in steps)

    def find(self, rule, property, alternatives, voters, *of_parts):
        case = first_case(self.rule(rule), property, alternatives, voters, *of_parts)
        if case is not None:
            return DONE, f'violated {property_text(property)}\n' + case_text(case)
        part = 'in part {} of {} '.format(*of_parts) if of_parts else ''
        return DENIED, f'none {part}up to {alternatives} alternatives and {voters} voters\n'

    def differ(self, rule, other_rule, alternatives, voters):
        terms = self.rule(rule), self.rule(other_rule)
        if simplified(terms[0])[0] == simplified(terms[1])[0]:
            return DENIED, 'same\n'
        found = first_difference(*terms, alternatives, voters)
        if found is None:
            return DENIED, f'same up to {alternatives} alternatives and {voters} voters\n'
        profile, splits = found
        ends = ''.join(f'{which} {one_line(split)}\n' for which, split in zip(('first', 'second'), splits))
        return DONE, 'differ\n' + size_text(profile) + votes_text(profile) + ends

    def batch(self, rule, manifest):
        term = self.rule(rule)
        names = self.text(manifest, LONGEST_MANIFEST, read_manifest)
        self.serve(term)
        lines = [self.batch_line(term, name) for name in names]
        refused = sum(1 for has_result, _ in lines if not has_result)
        text = ''.join(line for _, line in lines)
        return DONE, f'{text}profiles {len(names)} refused {refused}\n'

    def batch_line(self, term, name):
        """Whether there is a result of one profile, and its line."""
        try:
            file = self.soc(name)
        except Fault as fault:
            return False, f'{name} refused {fault.kind} at line {fault.place}\n'
        return True, f'{name} voters {file.voters()} {one_line(self.run(term, file))}\n'


def virage(words, shelf, out, err, bench, commands=COMMANDS):
    """The whole call: the text is written, or a line to the error sink, and the status is answered."""
    try:
        command = command_of(words, commands)
        if command is None:
            raise Stop(USAGE, 'usage fault')
        status, text = getattr(Call(shelf, bench), command.name)(*command.arguments)
        deliver(out, text if isinstance(text, bytes) else text.encode())
        return status
    except Stop as stop:
        try:
            write_whole(err, stop.line.encode() + b'\n')
        except Failed:
            pass
        return stop.status


def deliver(out, text):
    try:
        write_whole(out, text)
    except Failed:
        raise Stop(WRITE, 'write fault') from None


def are_text(words):
    """Whether the words are UTF-8. Others end a call at once, and nothing is printed."""
    return all(not '\ud800' <= sign <= '\udfff' for word in words for sign in word)


def answer(words, files, commands=COMMANDS):
    """The status of a call with these files in memory, and the bytes on its two streams."""
    out, err = MemorySink(), MemorySink()
    if not are_text(words):
        return USAGE, b'', b''
    status = virage(words, MemoryShelf(files), out, err, full_bench(), commands)
    return status, out.bytes, err.bytes


def main(words):
    if not are_text(words):
        return USAGE
    return virage(words, FolderShelf(), StreamSink(1), StreamSink(2), full_bench())


if __name__ == '__main__':
    sys.exit(main(sys.argv[1:]))
