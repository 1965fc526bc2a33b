"""The shipped examples: each is taken, and prints what stands beside it."""

from __future__ import annotations

import re
import unittest
from collections import Counter
from pathlib import Path
from typing import Iterator

from common import COURSE, EXAMPLES, PROGRAM, example_paths, model_output, played, run_program, script, script_of

from state import State
from vector import check
from xm.decoder import decode_script
from xm.encoder import Encoder, encode_script

NEIGHBOURS = EXAMPLES / "neighbours"
OUTSIDERS = {b"beacon", b"camera"}  # of attitude and of dosimeter


def kept_lines(path: Path) -> list[str]:
    """The events of a course script that attitude and dosimeter have in common with it, as lines."""
    data = script_of(path)
    lines = decode_script(data).split("\nevents\n")[1].splitlines()
    return [line for line in lines if line.split()[0].encode() not in OUTSIDERS]


def commented_answers(path: Path) -> Iterator[tuple[str, str]]:
    """The comment beside each event of an example, and what the model answers; of a text that is stored, its last byte."""
    text = path.read_bytes()
    _, answers = played(encode_script(text))
    written = text.decode().splitlines()
    lines = [piece.line for piece in Encoder(text).events]
    for index, (line, answer) in enumerate(zip(lines, answers)):
        if index + 1 == len(lines) or lines[index + 1] != line:
            yield written[line - 1].partition("# ")[2], answer


class Examples(unittest.TestCase):
    def test_there_are_some(self) -> None:
        names = {path.relative_to(EXAMPLES).as_posix() for path in example_paths()}
        self.assertLessEqual({"course.xm", "ports.xm", "faults.xm", "plans.xm", "neighbours/quiet.xm",
                              "neighbours/wild.xm"}, names)

    def test_the_model_prints_what_stands_beside_them(self) -> None:
        for path in example_paths():
            with self.subTest(path.name):
                self.assertEqual(model_output(script_of(path)), path.with_suffix(".out").read_text())

    def test_none_is_refused(self) -> None:
        for path in example_paths():
            with self.subTest(path.name):
                check(script.split(script_of(path))[0])

    def test_their_text_comes_back(self) -> None:
        for path in example_paths():
            data = script_of(path)
            self.assertEqual(encode_script(decode_script(data).encode()), data)

    def test_the_program_prints_it_too(self) -> None:
        if not PROGRAM.exists():
            self.skipTest("the program is not built")
        for path in example_paths():
            with self.subTest(path.name):
                self.assertEqual(run_program(script_of(path)), path.with_suffix(".out").read_text())

    def test_the_program_prints_the_areas(self) -> None:
        if not PROGRAM.exists():
            self.skipTest("the program is not built")
        if "\narea " not in run_program(script_of(COURSE), "areas"):
            self.skipTest("the program does not know the argument 'areas'")
        for path in example_paths():
            with self.subTest(path.name):
                data = script_of(path)
                self.assertEqual(run_program(data, "areas"), model_output(data, areas=True))


class Comments(unittest.TestCase):
    """What the examples' comments say of the answers."""

    def test_refused_and_answers_and_messages(self) -> None:
        """'refused' is a code below 0, 'answers N' the code N, 'N bytes, sent at T' the code N and the time T."""
        seen = Counter()
        for path in example_paths():
            for comment, answer in commented_answers(path):
                code, a, _ = answer.split()
                with self.subTest(path=path.name, comment=comment):
                    if comment.startswith("refused"):
                        self.assertLess(int(code), 0)
                        seen["refused"] += 1
                    for said in re.findall(r"^answers (\d+)", comment):
                        self.assertEqual(code, said)
                        seen["answers"] += 1
                    for length, time in re.findall(r"^(\d+) bytes, sent at ([\d,]+)", comment):
                        self.assertEqual((code, a), (length, time.replace(",", "")))
                        seen["messages"] += 1
        self.assertEqual({what: count > 1 for what, count in seen.items()},
                         {"refused": True, "answers": True, "messages": True})

    def test_every_refusal_is_commented(self) -> None:
        """Not where the neighbours try whatever they can think of."""
        for path in EXAMPLES.glob("*.xm"):
            for comment, answer in commented_answers(path):
                with self.subTest(path=path.name, comment=comment):
                    self.assertEqual(comment.startswith("refused"), answer.startswith("-"))


class Course(unittest.TestCase):
    def test_the_faulting_group_has_recovered(self) -> None:
        """After a warm reset dosimeter goes on with its count and its port; camera has no action, and is suspended."""
        system, answers = played(script_of(COURSE))
        camera, dosimeter = system.partitions[2], system.partitions[3]
        self.assertEqual((dosimeter.state, dosimeter.open_ports, system.areas[3][32]), (State.READY, {3}, 3))
        self.assertEqual(camera.state, State.SUSPENDED)

    def test_the_neighbours_scripts_differ_in_outsiders_alone(self) -> None:
        """Same vector, same ticks, same lines, same attitude, same dosimeter; but not the same script."""
        course = script_of(COURSE)
        for path in NEIGHBOURS.glob("*.xm"):
            data = script_of(path)
            self.assertEqual(script.split(data)[0], script.split(course)[0])
            self.assertEqual(kept_lines(path), kept_lines(COURSE))
            self.assertNotEqual(data, course)
