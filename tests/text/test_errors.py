"""What people get wrong: each mistake is refused with its line, its column and what is the matter."""

from __future__ import annotations

import subprocess
import tempfile
import unittest
from pathlib import Path

from common import COURSE, ROOT, run_tool

from xm.encoder import encode_script, encode_vector
from xm.script import LONGEST_SCRIPT
from xm.text import TextError

START = """\
partition A standard 16
partition B system 16
plan 1000
slot A 0 500
channel queuing 8 2
port A source out
events
"""
VECTOR = START.removesuffix("events\n")
FIRST_VECTOR_LINE = VECTOR.count("\n") + 1
FIRST_EVENT_LINE = START.count("\n") + 1

# A line of the vector below VECTOR, the column, and the message.
VECTOR_ERRORS = (
    ("slto A 0 500", 1, "unknown word 'slto'; did you mean 'slot'?"),
    ("frobnicate", 1, "unknown word 'frobnicate'"),
    ('"A"', 1, "\"A\" begins an event: events stand below a line 'events'"),
    ("A get_time", 1, "'A' begins an event: events stand below a line 'events'"),
    ("@3 get_time", 1, "'@3' begins an event: events stand below a line 'events'"),
    ("tick 5", 1, "'tick' begins an event: events stand below a line 'events'"),
    ("event", 1, "unknown word 'event'; did you mean 'events'?"),
    ("events now", 8, "'now' is too much: nothing more is expected in this line"),
    ("partition", 10, "the partition's name is missing"),
    ("partition C", 12, "the class is missing"),
    ("partition C standard", 21, "the size is missing"),
    ("partition C standard   # 16", 21, "the size is missing"),
    ("partition C normal 16", 13, "the class is standard or system, not 'normal'"),
    ("partition C standard sixteen", 22, "the size is a number, not 'sixteen'"),
    ("partition C standard -1", 22, "the size is a number, not '-1'"),
    ("partition C standard 1,000", 22, "the size is a number, not '1,000'"),
    ("partition C standard 0x", 22, "the size is a number, not '0x'"),
    ("partition C standard 1__0", 22, "the size is a number, not '1__0'"),
    ("partition C standard 65536", 22, "65536 is too large for the size: 65,535 is the most"),
    ("partition C standard 0x1_0000", 22, "0x1_0000 is too large for the size: 65,535 is the most"),
    ("partition C standard 16 16", 25, "'16' is too much: nothing more is expected in this line"),
    ("partition C-3 standard 16", 11, "'C-3' is no plain name: write it in quotes"),
    ("partition 3rd standard 16", 11, "'3rd' is no plain name: write it in quotes"),
    ('partition "" standard 16', 11, "a name has 1 to 16 bytes, this one has 0"),
    ("partition seventeen_letters standard 16", 11, "a name has 1 to 16 bytes, this one has 17"),
    ('partition "ääääääääa" standard 16', 11, "a name has 1 to 16 bytes, this one has 17"),
    ('partition "C standard 16', 11, "the quote is not closed"),
    ('partition "C\\" standard 16', 11, "the quote is not closed"),
    ('partition "C\\', 13, 'a backslash is followed by ", \\, n or x and two hexadecimal digits'),
    ('partition "C\\t" standard 16', 13, 'a backslash is followed by ", \\, n or x and two hexadecimal digits'),
    ('partition "C\\x4" standard 16', 13, 'a backslash is followed by ", \\, n or x and two hexadecimal digits'),
    ('partition "C"standard 16', 14, "a blank is missing before or behind the quotes"),
    ('partition"C" standard 16', 10, "a blank is missing before or behind the quotes"),
    ('partition C "standard" 16', 13, 'the class is standard or system, not "standard"'),
    ("plan", 5, "the frame is missing"),
    ("plan 4294967296", 6, "4294967296 is too large for the frame: 4,294,967,295 is the most"),
    ("plan " + "9" * 5000, 6, "9" * 5000 + " is too large for the frame: 4,294,967,295 is the most"),
    ("slot D 0 500", 6, "no partition is called 'D'"),
    ('slot "D" 0 500', 6, 'no partition is called "D"'),
    ("slot 0 0 500", 6, "the slot's partition is a name: write @0 for partition 0"),
    ("slot @256 0 500", 6, "@256 is too large for the slot's partition: 255 is the most"),
    ("slot @x 0 500", 6, "'@x' is no plain name: write it in quotes"),
    ("slot A", 7, "the start is missing"),
    ("slot A 0", 9, "the duration is missing"),
    ("channel sampled 8", 9, "the channel's type is sampling or queuing, not 'sampled'"),
    ("channel sampling", 17, "the longest message is missing"),
    ("channel sampling 8 1", 20, "'1' is too much: nothing more is expected in this line"),
    ("channel queuing 8", 18, "the depth is missing"),
    ("channel queuing 8 256", 19, "256 is too large for the depth: 255 is the most"),
    ("port A sink in", 8, "the direction is source or destination, not 'sink'"),
    ("port A source", 14, "the port's name is missing"),
    ("ipvi 256 A to B", 6, "256 is too large for the interrupt's number: 255 is the most"),
    ("ipvi 1", 7, "the source is missing"),
    ("ipvi 1 A", 9, "the word 'to' is missing"),
    ("ipvi 1 A B", 10, "here stands the word 'to', not 'B'"),
    ("ipvi 1 A to C", 13, "no partition is called 'C'"),
    ("ipvi 1 A to B B", 15, "'B' is a receiver already"),
    ("ipvi 1 A to @8", 13, "@8 is too large for the receiver's number: 7 is the most"),
    ("line 3", 7, "the line's owner is missing"),
    ("line 256 A", 6, "256 is too large for the line: 255 is the most"),
    ("action", 7, "the partition (or 'system') is missing"),
    ("action A", 9, "the event is missing"),
    ("action A MEM_PROTECT halt log", 10, "no event is called 'MEM_PROTECT'; did you mean 'MEM_PROTECTION'?"),
    ("action A mem_protection halt log", 10, "no event is called 'mem_protection'; did you mean 'MEM_PROTECTION'?"),
    ("action A BOOM halt log", 10, "no event is called 'BOOM'"),
    ("action A 256 halt log", 10, "256 is too large for the event: 255 is the most"),
    ("action A MEM_PROTECTION stop log", 25,
     "the action is ignore, signal, suspend, halt, warm_reset or cold_reset, not 'stop'"),
    ("action A MEM_PROTECTION 3 log", 25,
     "the action is ignore, signal, suspend, halt, warm_reset or cold_reset, not '3'"),
    ("action A MEM_PROTECTION halt", 29, "the log flag is missing"),
    ("action A MEM_PROTECTION halt yes", 30, "the log flag is silent or log, not 'yes'"),
    ("header", 7, "the number of partitions is missing"),
    ("header 1", 9, "the number of plans is missing"),
    ("header 256 1", 8, "256 is too large for the number of partitions: 255 is the most"),
    ("record", 7, "the kind is missing"),
    ("record 65536 00", 8, "65536 is too large for the kind: 65,535 is the most"),
    ("record 10 0", 11, "bytes are pairs of hexadecimal digits, not '0'"),
    ("record 10 00 0g", 14, "bytes are pairs of hexadecimal digits, not '0g'"),
    ("bytes", 6, "the first byte is missing"),
    ("bytes 0x00", 7, "bytes are pairs of hexadecimal digits, not '0x00'"),
)

# A line of the events below START, the column, and the message.
EVENT_ERRORS = (
    ("events", 1, "the events have begun already"),
    ("plan 1000", 1, "'plan' belongs to the vector, above the line 'events'"),
    ("partition C standard 16", 1, "'partition' belongs to the vector, above the line 'events'"),
    ("tock 5", 1, "no partition is called 'tock'"),
    ("D get_time", 1, "no partition is called 'D'"),
    ("0 get_time", 1, "the partition is a name: write @0 for partition 0"),
    ("@256 get_time", 1, "@256 is too large for the partition: 255 is the most"),
    ("A", 2, "what the partition does is missing"),
    ("A get_tyme", 3, "no call or event is named 'get_tyme'; did you mean 'get_time'?"),
    ("A XM_get_time", 3, "no call or event is named 'XM_get_time'; did you mean 'get_time'?"),
    ("A tick", 3, "no call or event is named 'tick'"),
    ('A "load" 3', 3, "no call or event is named \"load\"; did you mean 'load'?"),
    ("tick", 5, "the time is missing"),
    ("tick soon", 6, "the time is a number, not 'soon'"),
    ("tick 4294967296", 6, "4294967296 is too large for the time: 4,294,967,295 is the most"),
    ("tick 5 6", 8, "'6' is too much: nothing more is expected in this line"),
    ("A load", 7, "the offset is missing"),
    ("A store 3", 10, "the byte is missing"),
    ("A store 3 256", 11, "256 is too large for the byte: 255 is the most"),
    ('A store 3 ""', 11, "the text to store is empty"),
    ('A store 4294967295 "ab"', 20, "the text goes on behind the last offset, 4,294,967,295"),
    ("A fault", 8, "the event is missing"),
    ("A fault OVERFLOW", 9, "no event is called 'OVERFLOW'"),
    ("A fault OVERRUNS", 9, "no event is called 'OVERRUNS'; did you mean 'OVERRUN'?"),
    ("line", 5, "the line is missing"),
    ("line 3 A", 8, "'A' is too much: nothing more is expected in this line"),
    ("system_fault", 13, "the event is missing"),
    ("A get_time 5", 12, "'5' is an argument too many: get_time takes none"),
    ("A raise_ipvi 1 2", 16, "'2' is an argument too many: raise_ipvi takes 1"),
    ("A raise_ipvi", 13, "the number of raise_ipvi is missing"),
    ("A write_sampling_message 0 16", 30, "the length of write_sampling_message is missing"),
    ("A halt_partition D", 18, "no partition is called 'D'"),
    ("A reset_partition B hot", 21, "the mode of reset_partition is warm, cold or a number, not 'hot'"),
    ("A create_sampling_port 0 3 8 in", 30,
     "the direction of create_sampling_port is source, destination or a number, not 'in'"),
    ("A set_irqmask 0x1_0000_0000", 15,
     "0x1_0000_0000 is too large for the bits of set_irqmask: 4,294,967,295 is the most"),
    ("A call", 7, "the call's number is missing"),
    ("A call 256 0 0 0 0 0", 8, "256 is too large for the call's number: 255 is the most"),
    ("A call 1 2 3", 13, "argument 3 of 5 is missing"),
    ("A call 1 2 3 4 5 6 7", 20, "'7' is too much: nothing more is expected in this line"),
)

# Whole texts: line, column, message.
WHOLE_ERRORS = (
    ("partition A standard 16\nslot A 0 500", 2, 1, "a slot needs a plan above it"),
    ("partition A standard 16\nplan 9\n  port A source out", 3, 3, "a port needs a channel above it"),
    ("partition A standard 1\npartition A standard 2\nplan 9\nslot A 0 9", 4, 6,
     "2 partitions are called 'A': write @0 or @1"),
    ("partition A standard 16\nslot D 0 500 # first\npartition \"B standard 16", 2, 1, "a slot needs a plan above it"),
    ("\n\n\t# nothing\n\tplan", 4, 6, "the frame is missing"),
)


def refusal(text: bytes) -> tuple[int, int, str]:
    """Where a text is refused, and why."""
    try:
        encode_script(text)
    except TextError as error:
        return error.line, error.column, error.message
    return 0, 0, "taken"


class Errors(unittest.TestCase):
    def test_lines_of_the_vector(self) -> None:
        for line, column, message in VECTOR_ERRORS:
            with self.subTest(line[:60]):
                self.assertEqual(refusal(f"{VECTOR}{line}\nnonsense".encode()), (FIRST_VECTOR_LINE, column, message))

    def test_lines_of_the_events(self) -> None:
        for line, column, message in EVENT_ERRORS:
            with self.subTest(line):
                self.assertEqual(refusal(f"{START}{line}\nnonsense".encode()), (FIRST_EVENT_LINE, column, message))

    def test_whole_texts(self) -> None:
        for text, line, column, message in WHOLE_ERRORS:
            with self.subTest(text):
                self.assertEqual(refusal(text.encode()), (line, column, message))

    def test_what_the_lines_stand_in_is_taken(self) -> None:
        """The errors are those of the lines that were added."""
        self.assertEqual(refusal(START.encode()), (0, 0, "taken"))

    def test_indented_lines_count_their_blanks(self) -> None:
        self.assertEqual(refusal(f"{VECTOR}    slot  D 0 500".encode()),
                         (FIRST_VECTOR_LINE, 11, "no partition is called 'D'"))

    def test_text_that_is_not_utf8(self) -> None:
        self.assertEqual(refusal(b"# one\n# \xc3\xa4\xff\n"), (2, 4, "the text is not UTF-8"))

    def test_scripts_that_are_too_long(self) -> None:
        """The line is named with which the greatest length is passed; one byte less is taken."""
        start = encode_script(START.encode())
        lines, rest = divmod(LONGEST_SCRIPT - len(start), 5)
        for fits in (True, False):
            tail = "line 1\n" * (lines if fits else lines + 1)
            result = refusal((START + tail).encode())
            length = len(start) + 5 * (lines + 1)
            message = f"a script has at most 32,768 bytes: with this line it has {length:,}"
            self.assertEqual(result, (0, 0, "taken") if fits else (FIRST_EVENT_LINE + lines, 1, message))
        self.assertLess(rest, 5)

    def test_vectors_that_are_too_long(self) -> None:
        text = "header none\nbytes " + "00" * 32_767
        self.assertEqual(refusal(text.encode())[:2], (2, 1))
        self.assertEqual(len(encode_vector(text.encode())), 32_767)

    def test_too_many_partitions_for_the_header(self) -> None:
        text = "".join(f"partition p{number} standard 1\n" for number in range(256))
        self.assertEqual(refusal(text.encode()),
                         (1, 1, "the header has no room for 256 partitions: write a header of your own"))
        self.assertEqual(refusal(f"header 8 1\n{text}".encode()), (0, 0, "taken"))

    def test_the_rules_of_the_configuration_are_not_judged(self) -> None:
        """An area that is too large, slots that overlap, names twice: the check refuses those, not this tool."""
        text = "partition A system 2000\npartition A standard 0\nplan 0\nslot @0 5 9\nslot @7 2 0\nline 200 @9\n" \
               "channel sampling 999\nport @0 destination x\nipvi 9 @0 to @0\naction system 3 signal log\n"
        self.assertEqual(refusal(text.encode()), (0, 0, "taken"))


class CommandLine(unittest.TestCase):
    def test_an_error_names_the_file_and_nothing_is_written(self) -> None:
        with tempfile.TemporaryDirectory() as folder:
            text, out = Path(folder) / "course.xm", Path(folder) / "out"
            text.write_text("partition A standard 16\nplan 1000\n    slot D 0 500\n")
            run = run_tool("xmtext", "encode", text, "-o", out)
            self.assertEqual(run.stderr.decode(), f"{text}:3:10: no partition is called 'D'\n")
            self.assertEqual((run.returncode, run.stdout, out.exists()), (1, b"", False))

    def test_standard_input(self) -> None:
        run = run_tool("xmtext", "encode", "-", data=b"plan")
        self.assertEqual((run.returncode, run.stdout, run.stderr), (1, b"", b"stdin:1:5: the frame is missing\n"))

    def test_bytes_that_are_no_script(self) -> None:
        for data, reason in ((b"\x01", "it has 1 of the 2 bytes that say the vector's length"),
                             (b"\x01\x00", "it announces a vector of 1 bytes and has 0 of them"),
                             (b"\x00\x00\x01\x00", "the event at byte 2 is cut"),
                             (b"\x00\x00\x01\x00\x27\x00\x00", "the event at byte 2 has the kind 39"),
                             (b"\x00\x00\x01\x00\x20\x00\x00", "the event at byte 2 has 1 bytes, its kind has 4"),
                             (bytes(32_769), "it has 32,769 bytes, 32,768 are the most")):
            with self.subTest(reason):
                run = run_tool("xmtext", "decode", "-", data=data)
                self.assertEqual(run.stderr.decode(), f"stdin: this is no script: {reason}\n")
                self.assertEqual((run.returncode, run.stdout), (1, b""))

    def test_an_output_that_takes_nothing(self) -> None:
        script_out = COURSE.with_suffix(".out")
        for name, *arguments in (("xmtext", "encode", COURSE), ("xmlog", COURSE, script_out),
                                 ("xmsheet", COURSE, script_out, "--group", "camera")):
            with self.subTest(name), open("/dev/full", "wb") as full:
                run = subprocess.run([ROOT / "tools" / name, *arguments], stdout=full, stderr=subprocess.PIPE)
                self.assertEqual((run.returncode, run.stderr), (1, b"the output: No space left on device\n"))

    def test_a_file_that_is_not_there(self) -> None:
        run = run_tool("xmtext", "encode", "/nowhere/at/all.xm")
        self.assertEqual((run.returncode, run.stderr), (1, b"/nowhere/at/all.xm: No such file or directory\n"))
