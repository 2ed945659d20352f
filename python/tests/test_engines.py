"""The library in this process and the program: which is used, and that both answer the same."""

import contextlib
import ctypes
import os
import stat
import tempfile
import unittest
import unittest.mock
from concurrent.futures import ThreadPoolExecutor
from pathlib import Path
from typing import Any, Callable, Iterator, Optional

import virage
from virage.library import _Sizes, _Told

from .places import PROFILES, RULES, profile, rule

CIRCLE = [(1, [1, 2, 3]), (1, [2, 3, 1]), (1, [3, 1, 2])]


def library() -> Optional[virage.Library]:
    """The library, if there is one."""
    found = virage.engine()
    return found if isinstance(found, virage.Library) else None


@contextlib.contextmanager
def environment(**values: Optional[str]) -> Iterator[None]:
    """With these variables; None takes one away."""
    with unittest.mock.patch.dict(os.environ):
        for name, value in values.items():
            os.environ.pop(name, None)
            if value is not None:
                os.environ[name] = value
        yield


class Words(unittest.TestCase):
    def test_what_is_used_is_told(self) -> None:
        used = virage.engine()
        self.assertEqual(str(used), f"{used.kind} {used.path}")
        with environment(VIRAGE_LIBRARY="", VIRAGE="/some/virage"):
            self.assertEqual(str(virage.engine()), "program /some/virage")
        with environment(VIRAGE_LIBRARY=None, VIRAGE="/some/virage"):
            self.assertEqual(virage.engine().kind, "program")
        with environment(VIRAGE_LIBRARY=__file__), self.assertRaises(virage.NoProgram):
            virage.engine()

    def test_the_wrong_word_is_told(self) -> None:
        wrong: "list[tuple[Callable[[], Any], str]]" = [
            (lambda: virage.drill(-1, 1, 1), "-1"),
            (lambda: virage.drill(0, 1, 4096), "4096"),
            (lambda: virage.prove("elect", "monotone"), "monotone"),
            (lambda: virage.refute("elect", "cc", CIRCLE, CIRCLE, 1), "cc"),
            (lambda: virage.refute("elect", "mono", CIRCLE, CIRCLE, -1), "-1"),
            (lambda: virage.synth(16, "el"), "16"),
            (lambda: virage.synth(2, "el", "elekt"), "elekt"),
            (lambda: virage.position([0, 1], "max", CIRCLE), "0,1"),
            (lambda: virage.position([1, 0], "most", CIRCLE), "most"),
        ]
        for call, word in wrong:
            with self.assertRaises(virage.UsageFault) as fault:
                call()
            self.assertEqual(fault.exception.word, word)
            self.assertIn(repr(word), str(fault.exception))

    def test_what_a_wrong_word_should_be(self) -> None:
        votes = [(1, [1, 2])]
        for call, said in (
            (lambda: virage.prove("elect", "monotone"), "(is mono meant?)"),
            (lambda: virage.prove("elect", "defer"), "(is defers(1) meant?)"),
            (lambda: virage.prove("elect", "elim"), ": elim has a number, as elim(1)"),
            (lambda: virage.refute("elect", "mono", votes), "takes a second profile too, and the alternative that is"),
            (lambda: virage.refute("elect", "cc", votes, votes, 1), "takes one profile"),
            (lambda: virage.refute("elect", "neut", votes), "virage.search looks for one"),
            (lambda: virage.synth(3, "el,monoo"), "(is mono meant?)"),
            (lambda: virage.synth(3, "el", "elect;defr"), "(is defer meant?)"),
            (lambda: virage.position([1, 0], "upt", votes), "(is upto meant?)"),
        ):
            with self.assertRaises(virage.UsageFault) as fault:
                call()
            self.assertIn(said, str(fault.exception))

    def test_a_file_that_cannot_be_read_is_named(self) -> None:
        here = os.path.dirname(__file__)
        for call, said in (
            (lambda: virage.count("elect", "no.soc"), "read fault: 'no.soc': no such file"),
            (lambda: virage.count("elect", here), f"{here!r}: a folder"),
            (lambda: virage.count("borda", CIRCLE), '"seq(max(borda),elect)" is a rule of this score'),
            (lambda: virage.count("bord", CIRCLE), "'bord': no such file; a term as a string, or text with a"),
            (lambda: virage.count("elect", "3: 1,2"), "the text of a profile has a line feed"),
            (lambda: virage.batch("elect", [profile("tied"), "no.soc"]), "'no.soc': no such file"),
            (lambda: virage.count("seq(plurality", CIRCLE),
             "'seq(plurality': neither a file nor a term: ')' is missing"),
            (lambda: virage.count("r=elect", CIRCLE), "a semicolon behind each definition, as 'r=elect;'"),
            (lambda: virage.count("pass(1,[2", CIRCLE), "neither a file nor a term: ')' is missing"),
            (lambda: virage.count("rules/x=1.vir", CIRCLE), "'rules/x=1.vir': no such file"),
        ):
            with self.assertRaises(virage.ReadFault) as fault:
                call()
            self.assertIn(said, str(fault.exception))

    def test_what_cannot_be_given_is_named(self) -> None:
        for call, said in (
            (lambda: virage.count("elect", []), "profile has no votes"),
            (lambda: virage.count("elect", iter(())), "profile has no votes"),
            (lambda: virage.count(None, CIRCLE), "rule is a path, the text of a rule file, or a term, and not None"),
            (lambda: virage.count("elect", None), "profile is a path, the text of a profile, a Profile, or a list of"),
            (lambda: virage.pairs(3.5), "and not 3.5"),
            (lambda: virage.refute("elect", "mono", CIRCLE, 7, 1), "second is a path"),
            (lambda: virage.batch("elect", [CIRCLE, 5]), "profiles[1] is a path"),
            (lambda: virage.batch("elect", {"a": None}), "profiles['a'] is a path"),
            (lambda: virage.batch("elect", "x.soc"), "profiles is a list of profiles, or a dictionary of them"),
            (lambda: virage.check(None), "certificate is a path or a text, and not None"),
            (lambda: virage.search(None, "cc"), "rule is a path"),
            (lambda: virage.Profile.of(None), "lines is a list of weights and orders, and not None"),
        ):
            with self.assertRaises((TypeError, ValueError)) as fault:
                call()
            self.assertIn(said, str(fault.exception))


class Rules(unittest.TestCase):
    def test_a_term_is_a_rule(self) -> None:
        for text in ("seq(max(copeland),elect)", "seq( max(copeland), elect )"):
            self.assertEqual(str(virage.report(text, CIRCLE).term), "seq(max(copeland),elect)")
        self.assertEqual(virage.count("elect", CIRCLE).elected, {1, 2, 3})

    def test_its_fault_stands_where_it_was_written(self) -> None:
        with self.assertRaises(virage.TextRefused) as refused:
            virage.count("seq(max(copelend),elect)", CIRCLE)
        self.assertEqual((refused.exception.kind, refused.exception.byte), ("UnknownName", 8))

    def test_other_strings_are_paths(self) -> None:
        with tempfile.TemporaryDirectory() as room:
            path = Path(room, "copy (1)")
            path.write_text("r = elect;")
            self.assertEqual(virage.count(str(path), CIRCLE).elected, {1, 2, 3})
        with self.assertRaises(virage.ReadFault):
            virage.count("rules.vir", CIRCLE)


class Paths(unittest.TestCase):
    def test_a_path_that_is_no_text(self) -> None:
        with tempfile.TemporaryDirectory() as room:
            path = os.path.join(room, os.fsdecode(b"a\xff.soc"))
            Path(path).write_bytes(virage.Profile.of(CIRCLE).text())
            self.assertEqual(virage.count("elect", path).elected, {1, 2, 3})
            [row] = virage.batch("elect", [Path(path)])
            self.assertEqual((row.file, row.voters), (path, 3))
            with environment(VIRAGE_LIBRARY=""):
                self.assertEqual(virage.count("elect", path).elected, {1, 2, 3})

    def test_an_installed_program_is_found(self) -> None:
        with tempfile.TemporaryDirectory() as room:
            script, program = Path(room, "bin", "virage"), Path(room, "lib", "virage", "virage")
            for path, body in ((script, "echo 'virage 0'; echo 'build: proved, of abc'"), (program, "exit 7")):
                path.parent.mkdir(parents=True)
                path.write_text(f"#!/bin/sh\n{body}\n")
                path.chmod(path.stat().st_mode | stat.S_IXUSR)
            os.symlink(script, Path(room, "link"))
            self.assertEqual(virage.Program(Path(room, "link")).direct().path, str(program.resolve()))


class Layout(unittest.TestCase):
    """The copies of the records of c/virage.h, of which c/tests/layout.c says the same to a C compiler."""

    def test_records(self) -> None:
        for record, names in ((_Sizes, ("name", "content")), (_Told, ("out", "err"))):
            self.assertEqual(ctypes.sizeof(record), 16)
            self.assertEqual([(name, kind) for name, kind in record._fields_], [(it, ctypes.c_size_t) for it in names])
            self.assertEqual([getattr(record, name).offset for name in names], [0, 8])

    def test_a_line_that_is_cut_is_want_of_memory(self) -> None:
        cut = virage.Library.__new__(virage.Library)
        for status, line, fault in (
            (3, b"", virage.OutOfMemory),
            (3, b"text refused: ", virage.OutOfMemory),
            (4, b"profile refused: Repeated at line ", virage.OutOfMemory),
            (5, b"", virage.OutOfMemory),
            (2, b"", virage.UsageFault),
            (3, b"text refused: Unexpected at byte 4\n", virage.TextRefused),
            (4, b"profile refused: Short at line 3\n", virage.ProfileRefused),
            (4, b"profile refused\n", virage.Broken),
        ):
            told = (status, b"", line)
            with unittest.mock.patch.object(cut, "call", lambda *_, told=told: told, create=True):
                with self.assertRaises(fault, msg=repr(line)) as raised:
                    cut.run("drill", "0", "1", "1")
                self.assertTrue(str(raised.exception) or status == 2)


@unittest.skipUnless(library(), "there is no library")
class Both(unittest.TestCase):
    def test_all_examples(self) -> None:
        inside, program = library(), virage.Program().direct()
        for path in RULES:
            for votes in PROFILES:
                self.assertEqual(
                    virage.report(path, votes, program=inside), virage.report(path, votes, program=program)
                )
            for call in (virage.listing, virage.simplify):
                self.assertEqual(call(path, program=inside), call(path, program=program))
            self.assertEqual(
                virage.batch(path, PROFILES, program=inside), virage.batch(path, PROFILES, program=program)
            )

    def test_faults(self) -> None:
        inside = library()
        for given, fault in (
            ((rule("borda"), "no such file"), virage.ReadFault),
            (("no such file", profile("tied")), virage.ReadFault),
            ((rule("borda"), rule("borda")), virage.ProfileRefused),
            ((profile("tied"), "no such file"), virage.TextRefused),
        ):
            with self.assertRaises(fault):
                virage.count(*given, program=inside)

    def test_long_texts_are_whole(self) -> None:
        inside = library()
        assert inside
        for size in (1, 300, 3000):
            votes = "# NUMBER ALTERNATIVES: 1\n# ALTERNATIVE NAME 1: " + "n" * size * 20 + "\n"
            self.assertEqual(len(virage.report("elect", votes, program=inside).names[1]), size * 20)

    def test_threads(self) -> None:
        inside = library()
        wanted = {path: virage.report(path, profile("five-ways"), program=inside) for path in RULES}

        def call(number: int) -> bool:
            path = RULES[number % len(RULES)]
            return virage.report(path, profile("five-ways"), program=inside) == wanted[path]

        with ThreadPoolExecutor(8) as pool:
            self.assertTrue(all(pool.map(call, range(400))))


if __name__ == "__main__":
    unittest.main()
