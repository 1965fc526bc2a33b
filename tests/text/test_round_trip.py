"""Bytes to text and back: nothing is lost, and what has words is said in words."""

from __future__ import annotations

import struct
import tempfile
import unittest
from itertools import islice
from pathlib import Path
from random import Random

from common import ROOT, run_tool, script

import encode
from calls import CALL_COUNT
from design import design
from generate import scripts
from limits import WHOLE
from player import Player
from scenarios import FULL, directed
from xm.decoder import decode_script, decode_vector
from xm.encoder import encode_script, encode_vector
from xm.script import NoScript

SEED = 41
RANDOM_SCRIPTS = 200  # besides the directed ones
RANDOM_VECTORS = 1_000

# Names that are also words of the text, or look like something else.
ODD_NAMES = (b"tick", b"line", b"system_fault", b"system", b"events", b"to", b"none", b"call", b"load",
             b"partition", b"plan", b"record", b"bytes", b"@1", b"@", b"0", b"17", b"0x10", b"#", b"a#b", b'"',
             b'""', b"\\", b"\\x41", b" ", b"a b", b"\t", b"\n", b"\r", b"\x00", b"\xff", b"\xc3\xa4", b"A", b"A",
             b"a-b", b"sixteen letters!")

VECTOR_WORDS = {"partition", "plan", "slot", "channel", "port", "ipvi", "line", "action"}

SHIPPED = """\
partition A standard 16

plan 1000
    slot A 0 1000

events
tick 5
A get_time
A load 16
A get_time
"""

# The vector FULL of the model's scenarios, written by hand.
FULL_TEXT = """
partition "system" system 1_024     # quoted, since the bare word stands for the whole system
partition first standard 0x40
partition "sixteen letters!" standard 1
plan 100
slot "system" 0 40
slot first 50 20
slot "sixteen letters!" 70 30
plan 1_000_000
slot @2 999_999 1
channel sampling 64
port "system" source out
port first destination in
port @2 destination in
channel queuing 8 2
port first source queue
port @2 destination queue
ipvi 0 "system" to first @2
ipvi 7 first to "system" @2
line 0 first
line 15 @2
action "system" ILLEGAL_INST cold_reset log
action @2 PARTITION_ERROR ignore silent
action system OVERRUN warm_reset log
action system 11 ignore silent
"""

# Every event, with the bytes of its record by hand: kind and body.
EVENT_TEXTS = (
    ("tick 1_000_000", 32, struct.pack("<I", 1_000_000)),
    ("tick 0xFFFF_FFFF", 32, struct.pack("<I", 0xFFFF_FFFF)),
    ("A load 16", 34, struct.pack("<BI", 0, 16)),
    ("B store 3 0x41", 35, struct.pack("<BIB", 1, 3, 0x41)),
    ("A fault DIVIDE_EXCEPTION", 36, bytes([0, 4])),
    ("@9 fault 255", 36, bytes([9, 255])),
    ("line 2", 37, bytes([2])),
    ("system_fault INTERNAL_ERROR", 38, bytes([10])),
    ("B call 200 1 2 3 4 5", 33, struct.pack("<BB5I", 1, 200, 1, 2, 3, 4, 5)),
    ("A get_time", 33, struct.pack("<BB5I", 0, 0, 0, 0, 0, 0, 0)),
    ("A get_partition_status B", 33, struct.pack("<BB5I", 0, 1, 1, 0, 0, 0, 0)),
    ("A halt_partition @1", 33, struct.pack("<BB5I", 0, 2, 1, 0, 0, 0, 0)),
    ("A suspend_partition 1", 33, struct.pack("<BB5I", 0, 3, 1, 0, 0, 0, 0)),
    ("A resume_partition @4294967295", 33, struct.pack("<BB5I", 0, 4, 0xFFFF_FFFF, 0, 0, 0, 0)),
    ("A reset_partition B cold", 33, struct.pack("<BB5I", 0, 5, 1, 1, 0, 0, 0)),
    ("A reset_partition B 7", 33, struct.pack("<BB5I", 0, 5, 1, 7, 0, 0, 0)),
    ("A idle_self", 33, struct.pack("<BB5I", 0, 6, 0, 0, 0, 0, 0)),
    ("A switch_sched_plan 2", 33, struct.pack("<BB5I", 0, 7, 2, 0, 0, 0, 0)),
    ("A get_plan_status", 33, struct.pack("<BB5I", 0, 8, 0, 0, 0, 0, 0)),
    ("A create_sampling_port 1 2 3 destination", 33, struct.pack("<BB5I", 0, 9, 1, 2, 3, 1, 0)),
    ("A write_sampling_message 1 2 3", 33, struct.pack("<BB5I", 0, 10, 1, 2, 3, 0, 0)),
    ("A read_sampling_message 1 2 3", 33, struct.pack("<BB5I", 0, 11, 1, 2, 3, 0, 0)),
    ("A create_queuing_port 1 2 3 source 5", 33, struct.pack("<BB5I", 0, 12, 1, 2, 3, 0, 5)),
    ("A send_queuing_message 1 2 3", 33, struct.pack("<BB5I", 0, 13, 1, 2, 3, 0, 0)),
    ("A receive_queuing_message 1 2 3", 33, struct.pack("<BB5I", 0, 14, 1, 2, 3, 0, 0)),
    ("A get_queuing_port_status 1", 33, struct.pack("<BB5I", 0, 15, 1, 0, 0, 0, 0)),
    ("A raise_ipvi 1", 33, struct.pack("<BB5I", 0, 16, 1, 0, 0, 0, 0)),
    ("A get_irqs", 33, struct.pack("<BB5I", 0, 17, 0, 0, 0, 0, 0)),
    ("A set_irqmask 0x1ff", 33, struct.pack("<BB5I", 0, 18, 0x1FF, 0, 0, 0, 0)),
    ("A clear_irqmask 0x1ff", 33, struct.pack("<BB5I", 0, 19, 0x1FF, 0, 0, 0, 0)),
    ("A clear_irqpend 0x1ff", 33, struct.pack("<BB5I", 0, 20, 0x1FF, 0, 0, 0, 0)),
    ("A hm_raise_event", 33, struct.pack("<BB5I", 0, 21, 0, 0, 0, 0, 0)),
    ("A hm_read", 33, struct.pack("<BB5I", 0, 22, 0, 0, 0, 0, 0)),
    ("A reset_system warm", 33, struct.pack("<BB5I", 0, 23, 0, 0, 0, 0, 0)),
    ("A halt_system", 33, struct.pack("<BB5I", 0, 24, 0, 0, 0, 0, 0)),
)


def is_script(data: bytes) -> bool:
    """Whether the model takes bytes for a script."""
    try:
        script.split(data)
    except script.BadScript:
        return False
    return True


def decoded_or_none(data: bytes) -> str | None:
    """The text of a script, or None if the tool says that it is none."""
    try:
        return decode_script(data)
    except NoScript:
        return None


def odd_record(rng: Random) -> bytes:
    """A record of any kind, with numbers and names that are often odd."""
    kind = rng.choice((0, 10, 300, *range(1, 10), *range(1, 10), *range(1, 10)))
    if kind in encode.LAYOUTS and rng.random() < 0.9:
        letters = encode.LAYOUTS[kind][1:]
        most = {"B": 8, "H": 2_000, "I": 20_000}
        numbers = [rng.choice((0, 1, rng.randrange(most[letter]), 255)) for letter in letters]
        name = rng.choice(ODD_NAMES) if kind in (2, 6) else b""
        return encode.Record(kind, tuple(numbers), name).encoded()
    return encode.framed(kind, rng.randbytes(rng.choice((0, 1, 2, 3, 4, 9, 20, 40))))


def odd_vector(rng: Random) -> bytes:
    """Records in any order; now and then one that is cut at the end."""
    records = [odd_record(rng) for _ in range(rng.randrange(12))]
    if records and rng.random() < 0.4:
        records.insert(0, encode.header(rng.randrange(4), rng.randrange(3)).encoded())
    rest = rng.randbytes(rng.randrange(6)) if rng.random() < 0.2 else b""
    return b"".join(records) + rest


def odd_events(rng: Random) -> bytes:
    """Events of any sort, by anybody."""
    events = b""
    for _ in range(rng.randrange(6)):
        kind = rng.randint(32, 38)
        width = {32: 4, 33: 22, 34: 5, 35: 6, 36: 2, 37: 1, 38: 1}[kind]
        body = bytes(rng.choice((0, 0, 0, 1, 2, rng.randrange(256))) for _ in range(width))
        events += encode.framed(kind, body)
    return events


class RoundTrip(unittest.TestCase):
    def test_scripts_of_the_model(self) -> None:
        """Scripts, those with spoiled vectors too, come back byte for byte; what is no script has no text."""
        directed_count = sum(1 for _ in directed(WHOLE))
        there = absent = 0
        for name, data in islice(scripts(SEED, WHOLE), directed_count + RANDOM_SCRIPTS):
            text = decoded_or_none(data)
            self.assertEqual(text is not None, is_script(data), name)
            if text is None:
                absent += 1
            else:
                there += 1
                self.assertEqual(encode_script(text.encode()), data, name)
        self.assertGreater(there, 1_000)
        self.assertGreater(absent, 100)

    def test_odd_vectors_and_names(self) -> None:
        """So do records in any order, with names that look like words, numbers, quotes or comments."""
        rng = Random(SEED)
        for _ in range(RANDOM_VECTORS):
            vector = odd_vector(rng)
            data = struct.pack("<H", len(vector)) + vector + odd_events(rng)
            self.assertEqual(encode_script(decode_script(data).encode()), data, data.hex())

    def test_vectors_alone(self) -> None:
        """Any bytes at all are a vector's; with them goes no length and no limit."""
        rng = Random(SEED)
        vectors = [odd_vector(rng) for _ in range(200)] + [rng.randbytes(n) for n in range(60)] + [bytes(40_000)]
        for vector in vectors:
            self.assertEqual(encode_vector(decode_vector(vector).encode()), vector, vector.hex())

    def test_more_partitions_than_a_byte_counts(self) -> None:
        for count in (255, 256, 300):
            vector = b"".join(encode.partition(0, 1, b"p%d" % n).encoded() for n in range(count))
            for start in (b"", encode.header(count & 0xFF, 0).encoded()):
                self.assertEqual(encode_vector(decode_vector(start + vector).encode()), start + vector)


class Words(unittest.TestCase):
    def test_good_vectors_need_no_bytes(self) -> None:
        """A vector that keeps every rule is said in words alone, and its header is made."""
        rng = Random(SEED)
        for _ in range(150):
            text = decode_vector(encode.vector(design(rng, WHOLE)))
            first_words = {line.split()[0] for line in text.splitlines() if line}
            self.assertLessEqual(first_words, VECTOR_WORDS)

    def test_calls_are_named_unless_a_spare_argument_is_used(self) -> None:
        rng = Random(SEED)
        player = Player(rng, encode.vector(design(rng, WHOLE)), WHOLE)
        for number in range(CALL_COUNT):
            player.call(0, number)
        text = decode_script(encode.script(player.vector, player.events))
        self.assertNotIn(" call ", text)
        player.call(0, 0, 0, 0, 0, 0, 1)
        player.call(0, CALL_COUNT)
        text = decode_script(encode.script(player.vector, player.events))
        self.assertEqual(text.count(" call "), 2)

    def test_the_shipped_script(self) -> None:
        data = (ROOT / "crates" / "xmscript" / "stdin").read_bytes()
        self.assertEqual(decode_script(data), SHIPPED)
        self.assertEqual(encode_script(SHIPPED.encode()), data)

    def test_a_vector_with_every_kind(self) -> None:
        """The widths are those that the model writes with."""
        self.assertEqual(encode_vector(FULL_TEXT.encode()), encode.vector(FULL))

    def test_every_event(self) -> None:
        vector = "partition A standard 1\npartition B standard 1\n"
        start = encode_script(vector.encode())
        for text, kind, body in EVENT_TEXTS:
            with self.subTest(text):
                self.assertEqual(encode_script(f"{vector}events\n{text}".encode()), start + encode.framed(kind, body))

    def test_text_to_store(self) -> None:
        vector = "partition A standard 1\nevents\n"
        stores = "".join(f"A store {place} {byte}\n" for place, byte in enumerate(b'a"\\\n\xff\xc3\xa4#', 7))
        self.assertEqual(encode_script((vector + 'A store 7 "a\\"\\\\\\n\\xFFä#"  # a comment').encode()),
                         encode_script((vector + stores).encode()))

    def test_text_comes_back_as_text(self) -> None:
        """Letters one behind the other are one line; another guest, place, byte or event begins a new one."""
        events = ('A store 7 "ab \\"c"', "A store 20 100", "B store 21 101", 'B store 4 "xy"', "B store 6 10", "tick 5",
                  'B store 7 "zz"', "B load 9", "B store 9 122", "B store 9 122", 'A store 4_294_967_294 "ab"')
        start = "partition A standard 1\npartition B standard 1\n\nevents\n"
        text = start + "".join(f"{event}\n" for event in events)
        self.assertEqual(decode_script(encode_script(text.encode())), text)

    def test_headers(self) -> None:
        """Made from the counts, given, or none."""
        partition = encode.partition(0, 1, b"A").encoded()
        made = encode.header(1, 0).encoded()
        for text, expected in (("", made + partition), ("header 3 1", encode.header(3, 1).encoded() + partition),
                               ("header none", partition), ("record 1 03", encode.framed(1, b"\x03") + partition)):
            self.assertEqual(encode_vector(f"{text}\npartition A standard 1".encode()), expected, text)

    def test_line_ends_blanks_and_comments(self) -> None:
        plain = "partition A standard 16\nevents\ntick 5\n"
        odd = "\ufeff# one\r\n\r\n\tpartition\tA standard  16# no blank needed\r\n  events # \"\r\n\r\ntick 5"
        self.assertEqual(encode_script(odd.encode()), encode_script(plain.encode()))


class CommandLine(unittest.TestCase):
    def test_there_and_back(self) -> None:
        data = encode_script(SHIPPED.encode())
        vector = encode_vector(SHIPPED.encode())
        with tempfile.TemporaryDirectory() as folder:
            text, binary = Path(folder) / "a.xm", Path(folder) / "a.bin"
            text.write_text(SHIPPED)
            self.assertEqual(run_tool("xmtext", "encode", text).stdout, data)
            self.assertEqual(run_tool("xmtext", "encode", "-", data=SHIPPED.encode()).stdout, data)
            self.assertEqual(run_tool("xmtext", "encode", "--vector", text).stdout, vector)
            self.assertEqual(run_tool("xmtext", "encode", text, "-o", binary).stdout, b"")
            self.assertEqual(binary.read_bytes(), data)
            self.assertEqual(run_tool("xmtext", "decode", binary).stdout.decode(), SHIPPED)
            back = run_tool("xmtext", "decode", "--vector", "-", data=vector)
            self.assertEqual(back.stdout.decode(), SHIPPED.split("\nevents")[0])
            self.assertEqual(back.returncode, 0)
