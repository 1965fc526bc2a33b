"""The log of a whole script: every event with its answer, and where a refused vector is wrong."""

from __future__ import annotations

import tempfile
import unittest
from pathlib import Path
from random import Random

from common import COURSE, EXAMPLES, example_paths, model_output, run_tool, script_of

import encode
from design import design
from limits import WHOLE
from player import Player
from spoil import spoiled
from vector import VectorRefused, check
from xm.decoder import decode_vector
from xm.encoder import encode_script, encode_vector, record_lines
from xm.log import log_lines
from xm.output import read_output
from xm.refusal import refusal_lines
from xm.script import split_script
from xm.sheet import NoSheet

SEED = 44
HISTORIES = 40
SPOILED = 300

# A text whose vector is taken. Each change makes the check refuse a line: old, new, the line, number and words.
GOOD = """\
# A comment, so that lines and records do not go together.
partition A standard 16
partition B standard 16

plan 1000
    slot A   0 500
    slot B 500 500
channel queuing 8 2
    port A source out
    port B destination in
ipvi 1 A to B
line 3 A
action A MEM_PROTECTION halt log
"""
SPOILS = (
    ("A standard 16", "A standard 1025", 2, 21, "record 2, PARTITION, its size"),
    ("plan 1000", "plan 0", 5, 21, "record 4, PLAN, its frame"),
    ("slot B 500 500", "slot B 499 500", 7, 33, "record 6, SLOT"),
    ("slot B 500 500", "slot @2 500 500", 7, 21, "record 6, SLOT, its partition"),
    ("slot B 500 500", "slot B 500 0", 7, 21, "record 6, SLOT, its duration"),
    ("queuing 8 2", "queuing 8 9", 8, 21, "record 7, CHANNEL, its depth"),
    ("B destination", "B source", 10, 21, "record 9, PORT, its direction"),
    ("ipvi 1 A to B", "ipvi 1 A to A", 11, 21, "record 10, IPVI, its mask of receivers"),
    ("line 3 A", "line 16 A", 12, 21, "record 11, LINE, its line"),
    ("line 3 A", "line 3 A\nline 3 B", 13, 32, "record 12, LINE"),
    ("MEM_PROTECTION", "OVERRUN", 13, 21, "record 12, ACTION, its event"),
)


def log(data: bytes) -> list[str]:
    """The log of a script for what the model prints."""
    vector, events = split_script(data)
    return log_lines(vector, events, read_output(model_output(data))["fenced"])


def refusal(vector: bytes) -> tuple[int, int] | None:
    """Number and place, by the model."""
    try:
        check(vector)
    except VectorRefused as refused:
        return int(refused.number), refused.place
    return None


class Events(unittest.TestCase):
    def test_the_words_of_the_course(self) -> None:
        lines = [" ".join(line.split()) for line in log(script_of(COURSE))]
        for line in ("1 tick 100 = it is 100 µs (0 0 0)",
                     "2 attitude get_time = the time is 100 µs (0 100 0)",
                     "29 beacon create_queuing_port 4 8 16 destination 2 = port 5 (pictures) is open (5 0 0)",
                     "31 beacon receive_queuing_message 5 32 16 ! XM_NOT_AVAILABLE: the queue is empty (-7 0 0)",
                     "106 line 3 = signalled to its owner (0 0 0)",
                     "113 camera get_time ! not on the processor: its slot does not run, or it is not READY (-9 0 0)"):
            self.assertIn(line, lines)

    def test_the_boards_own_events(self) -> None:
        text = ("partition A standard 1\nplan 10\nslot A 0 10\nline 3 A\naction system OVERRUN cold_reset log\nevents\n"
                "tick 5\ntick 4\nline 3\nline 4\nline 16\nsystem_fault OVERRUN\nsystem_fault 12\n@7 get_time\n")
        found = [line.split("  ", 1)[1].strip() for line in log(encode_script(text.encode()))]
        self.assertEqual([" ".join(line.split()) for line in found], [
            "tick 5 = it is 5 µs (0 0 0)",
            "tick 4 ! XM_OP_NOT_ALLOWED: the time is before now, or more than 1,000,000 µs ahead (-8 0 0)",
            "line 3 = signalled to its owner (0 0 0)",
            "line 4 ! XM_NO_ACTION: nobody owns the line (-1 0 0)",
            "line 16 ! XM_INVALID_PARAM: the lines go from 0 to 15 (-3 0 0)",
            "system_fault OVERRUN = health monitor: cold_reset, the system is reset, its areas zeroed (5 0 0)",
            "system_fault 12 ! XM_INVALID_PARAM: the system's events are 8 to 11 (-3 0 0)",
            "@7 get_time ! not on the processor: its slot does not run, or it is not READY (-9 0 0)"])

    def test_every_line_has_the_numbers_of_the_output(self) -> None:
        """In examples and random histories: the same numbers in the same order, and a mark at refusals alone."""
        rng = Random(SEED)
        scripts = [script_of(path) for path in example_paths()]
        for _ in range(HISTORIES):
            player = Player(rng, encode.vector(design(rng, WHOLE)), WHOLE)
            player.play(rng.choice((30, 80)))
            scripts.append(encode.script(player.vector, player.events))
        for data in scripts:
            printed = model_output(data).split("paged\n")[0].splitlines()[1:]
            lines = log(data)
            self.assertEqual([line.rsplit("(", 1)[1] for line in lines], [f"{numbers})" for numbers in printed])
            for line, numbers in zip(lines, printed):
                self.assertIn("  ! " if numbers.startswith("-") else "  = ", line)

    def test_an_output_of_another_script(self) -> None:
        vector, events = split_script(script_of(COURSE))
        block = read_output(model_output(script_of(EXAMPLES / "ports.xm")))["fenced"]
        with self.assertRaisesRegex(NoSheet, "do not belong together"):
            log_lines(vector, events, block)


class Refusals(unittest.TestCase):
    def test_the_line_of_the_text_is_named(self) -> None:
        self.assertIsNone(refusal(encode_vector(GOOD.encode())))
        for old, new, line, number, record in SPOILS:
            with self.subTest(new):
                self.assertEqual(GOOD.count(old), 1)
                text = GOOD.replace(old, new)
                vector = encode_vector(text.encode())
                found, place = refusal(vector)
                lines = refusal_lines(vector, found, place, text.encode())
                written = text.splitlines()[line - 1].strip()
                self.assertEqual((found, lines[1:]), (number, [f"  {record}", f"  line {line}: {written}"]))

    def test_refusals_that_no_line_is_about(self) -> None:
        """The end of the vector is nobody's line; a made header is none."""
        for text, words in ((b"partition A standard 1\nplan 9\n", ["refused 16 at byte 22: the vector ends and"]),
                            (b"plan 9\n", ["refused 21 at byte 4: ", "record 1, HEADER, its number of partitions",
                                           "the header, which counts the partitions and the plans"])):
            vector = encode_vector(text)
            lines = refusal_lines(vector, *refusal(vector), text)
            self.assertEqual(len(lines), len(words))
            for line, part in zip(lines, words):
                self.assertIn(part, line)

    def test_spoiled_vectors(self) -> None:
        """The lines' bytes are the vector's; the line that is named is the one with the place in it."""
        rng = Random(SEED)
        for _ in range(SPOILED):
            vector = spoiled(rng, design(rng, WHOLE))
            text = decode_vector(vector).encode()
            ends = [0] + [end for _, _, end in record_lines(text)]
            self.assertEqual([start for _, start, _ in record_lines(text)], ends[:-1])
            self.assertEqual(ends[-1], len(vector))
            found = refusal(vector)
            if found and found[1] < len(vector):
                last = refusal_lines(vector, *found, text)[-1].strip()
                named = [line for line, start, end in record_lines(text) if start <= found[1] < end]
                self.assertTrue(last.startswith(f"line {named[0]}: " if named[0] else "the header"), last)


class CommandLine(unittest.TestCase):
    def test_from_the_programs_output(self) -> None:
        out = COURSE.with_suffix(".out")
        wanted = "".join(f"{line}\n" for line in log(script_of(COURSE)))
        for arguments, data in (((COURSE, out), b""), ((COURSE, "-", "--board", "paged"), out.read_bytes())):
            run = run_tool("xmlog", *arguments, data=data)
            self.assertEqual((run.returncode, run.stdout.decode(), run.stderr), (0, wanted, b""))

    def test_a_refused_vector(self) -> None:
        with tempfile.TemporaryDirectory() as folder:
            path = Path(folder) / "wide.xm"
            path.write_text(GOOD.replace("A standard 16", "A standard 1025"))
            run = run_tool("xmlog", path, "-", data=b"refused 21 11\n")
            self.assertEqual(run.stdout.decode().splitlines()[1:],
                             ["  record 2, PARTITION, its size", "  line 2: partition A standard 1025"])

    def test_errors(self) -> None:
        for arguments, data, message in (
                ((COURSE, "-"), b"bad\n", "-: it says that the script is bad"),
                ((COURSE, "-"), b"fenced\n0 0 0\n", "do not belong together"),
                ((COURSE, "-", "--board", "paged"), b"fenced\n", "the output has no block 'paged'"),
                ((COURSE.with_suffix(".out"), "-"), b"fenced\n", "this is no script"),
                (("nowhere.xm", "-"), b"fenced\n", "No such file or directory")):
            with self.subTest(message):
                run = run_tool("xmlog", *arguments, data=data)
                self.assertEqual((run.returncode, run.stdout, run.stderr.count(b"\n")), (1, b"", 1))
                self.assertIn(message, run.stderr.decode())
