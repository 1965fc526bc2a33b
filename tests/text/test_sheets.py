"""Sheets: what is on them, and that nothing of a neighbour is."""

from __future__ import annotations

import tempfile
import unittest
from html.parser import HTMLParser
from pathlib import Path
from random import Random
from typing import Iterator

from common import COURSE, EXAMPLES, model_output, run_tool, script, script_of

import circle as circles
import encode
from coverage import CALL_CAUSES
from design import design
from encode import Record
from events import Call, Event, Fault, Line, Load, Store
from limits import WHOLE
from player import Player
from vector import Tables, check
from xm import script as xm
from xm.encoder import encode_script
from xm.group import Group, read_group
from xm.output import BOARDS, Answer, Block, NoOutput, read_output
from xm.page import html_sheet
from xm.plain import WIDTH, event_lines, plain_sheet
from xm.script import split_script
from xm.sheet import Entry, NoSheet, is_own, make_sheet
from xm.wording import CALL_REASONS

SEED = 43
HISTORIES = 16
GROUPS = ("attitude", "beacon", "camera", "dosimeter")
VOID_TAGS = ("meta", "br")


def sheets(data: bytes, number: int, board: str = "fenced") -> tuple[str, str]:
    """Page and plain text of a partition's sheet, with its area, for what the model prints."""
    vector, events = split_script(data)
    return both_forms(vector, events, read_output(model_output(data, areas=True))[board], number)


def both_forms(vector: bytes, events: list[xm.Event], block: Block, number: int) -> tuple[str, str]:
    """Page and plain text of a partition's sheet, with its area."""
    sheet = make_sheet(read_group(vector, number), events, block, with_area=True)
    return html_sheet(sheet), plain_sheet(sheet)


def owner(tables: Tables, event: Event) -> int | None:
    """The partition that an event belongs to."""
    match event:
        case Call() | Load() | Store() | Fault():
            return event.partition
        case Line(line):
            return tables.lines.get(line)
    return None


def without(data: bytes, partitions: set[int]) -> bytes:
    """A script without the events of some partitions."""
    vector, events = script.split(data)
    tables = check(vector)
    return encode.script(vector, [event for event in events if owner(tables, event) not in partitions])


class Disturbance:
    """Changes all that is not one partition's own: rows of the vector, events, answers and areas."""

    def __init__(self, rng: Random, keep: int):
        self.rng = rng
        self.keep = keep

    def other(self) -> int:
        """Any partition but the one that is kept."""
        return self.rng.choice([number for number in range(8) if number != self.keep])

    def vector(self, records: list[Record]) -> bytes:
        """A vector with the same rows of the partition and other rows of all others."""
        changed = []
        partitions = 0
        for index, record in enumerate(records):
            is_own = self.is_own(records, index, partitions)
            changed.append(self.own_row(record) if is_own else self.other_row(record))
            partitions += record.kind == 2
        return encode.vector(changed)

    def is_own(self, records: list[Record], index: int, partitions: int) -> bool:
        """Whether a record says something of the partition; headers and plans say it of everybody."""
        record = records[index]
        if record.kind == 2:
            return partitions == self.keep
        if record.kind == 5:
            return self.keep in port_owners(records, index)
        place = {4: 0, 6: 0, 7: 1, 8: 1, 9: 0}.get(record.kind)
        return place is None or record.numbers[place] == self.keep

    def own_row(self, record: Record) -> Record:
        """An own row; whom an interrupt of its own reaches is not on the sheet."""
        return record.with_number(2, self.rng.randrange(256)) if record.kind == 7 else record

    def other_row(self, record: Record) -> Record:
        """Another row in place of a neighbour's."""
        rng, name = self.rng, self.rng.randbytes(9)
        match record.kind:
            case 2:
                return encode.partition(rng.randrange(2), rng.randint(1, 1_024), name)
            case 4:
                return encode.slot(self.other(), rng.randrange(1_000), rng.randrange(1_000))
            case 5:
                return encode.channel(rng.randrange(2), rng.randint(1, 64), rng.randint(1, 8))
            case 6:
                return encode.port(self.other(), rng.randrange(2), name)
            case 7:
                return encode.ipvi(rng.randrange(8), self.other(), rng.randrange(256))
            case 8:
                return encode.line(record.numbers[0], self.other())
        return encode.action(rng.choice((self.other(), 255)), rng.randrange(12), rng.randrange(6), rng.randrange(2))

    def history(self, group: Group, events: list[xm.Event], block: Block) -> tuple[list[xm.Event], Block]:
        """Own events and ticks as they are; between them other events with other answers."""
        changed: list[xm.Event] = []
        answers: list[Answer] = []
        for event, answer in zip(events, block.answers):
            for _ in range(self.rng.randrange(3)):
                changed.append(xm.Event(xm.LOAD, (self.other(), self.rng.randrange(99))))
                answers.append(Answer(self.rng.randint(-10, 5), self.rng.randrange(99), self.rng.randrange(99)))
            if event.kind == xm.TICK or is_own(group, event):
                changed.append(event)
                answers.append(answer)
        areas = {number: area if number == self.keep else self.rng.randbytes(len(area))
                 for number, area in block.areas.items()}
        return changed, Block(answers, areas)


def port_owners(records: list[Record], channel: int) -> list[int]:
    """Whose ports the channel at a place has."""
    found = []
    for record in records[channel + 1:]:
        if record.kind != 6:
            break
        found.append(record.numbers[0])
    return found


def random_players(rng: Random, count: int) -> Iterator[Player]:
    """Random vectors, each with a history; the player also has the vector's records."""
    for _ in range(count):
        records = design(rng, WHOLE)
        player = Player(rng, encode.vector(records), WHOLE)
        player.records = records
        player.play(rng.choice((30, 80)))
        yield player


class Balance(HTMLParser):
    """Reads a page; every tag that opens must close in turn."""

    def __init__(self) -> None:
        super().__init__()
        self.open: list[str] = []
        self.tags: set[str] = set()
        self.attributes: set[str] = set()

    def handle_starttag(self, tag: str, attrs: list[tuple[str, str | None]]) -> None:
        self.tags.add(tag)
        self.attributes |= {name for name, _ in attrs}
        if tag not in VOID_TAGS:
            self.open.append(tag)

    def handle_startendtag(self, tag: str, attrs: list[tuple[str, str | None]]) -> None:
        self.tags.add(tag)
        self.attributes |= {name for name, _ in attrs}

    def handle_endtag(self, tag: str) -> None:
        if not self.open or self.open.pop() != tag:
            raise AssertionError(f"</{tag}> closes nothing")


class Neighbours(unittest.TestCase):
    """What a group's sheet depends on."""

    def test_the_same_beside_other_neighbours(self) -> None:
        """attitude and dosimeter have the same sheets beside the course's, quiet and wild neighbours."""
        course = script_of(COURSE)
        for path in (EXAMPLES / "neighbours").glob("*.xm"):
            for group in ("attitude", "dosimeter"):
                with self.subTest(group=group, beside=path.stem):
                    number = GROUPS.index(group)
                    self.assertEqual(sheets(script_of(path), number), sheets(course, number))

    def test_the_circle_and_nobody_else_matters(self) -> None:
        """Silencing one group changes the sheets of those in whose circle it is, and of nobody else."""
        course = script_of(COURSE)
        tables = check(script.split(course)[0])
        everybody = range(len(GROUPS))
        pairs = [(group, other) for group in everybody for other in everybody if group != other]
        changed = {(GROUPS[group], GROUPS[other]) for group, other in pairs
                   if sheets(without(course, {other}), group) != sheets(course, group)}
        inside = {(GROUPS[group], GROUPS[other]) for group, other in pairs
                  if other in circles.circle(tables, group)}
        self.assertEqual(changed, inside)
        self.assertEqual(inside, {("beacon", "attitude"), ("beacon", "camera"), ("camera", "attitude"),
                                  ("camera", "beacon"), ("dosimeter", "attitude")})

    def test_a_member_of_the_circle_shows(self) -> None:
        """attitude is in dosimeter's circle: with a shorter message of its, dosimeter's sheet is another one."""
        text = COURSE.read_text()
        shorter = text.replace("attitude write_sampling_message 0 16 8", "attitude write_sampling_message 0 16 4")
        self.assertNotEqual(shorter, text)
        number = GROUPS.index("dosimeter")
        for one, other in zip(sheets(encode_script(text.encode()), number),
                              sheets(encode_script(shorter.encode()), number)):
            self.assertNotEqual(one, other)

    def test_no_name_of_another_group(self) -> None:
        for path in (COURSE, *(EXAMPLES / "neighbours").glob("*.xm")):
            for number, group in enumerate(GROUPS):
                for form in sheets(script_of(path), number):
                    self.assertIn(group, form)
                    for other in set(GROUPS) - {group}:
                        self.assertNotIn(other, form, f"on the sheet of {group}")

    def test_both_boards_give_the_same(self) -> None:
        course = script_of(COURSE)
        for number in range(len(GROUPS)):
            self.assertEqual(*(sheets(course, number, board) for board in BOARDS))

    def test_random_histories(self) -> None:
        """Without the outsiders' events every standard partition's sheet stays as it is."""
        rng = Random(SEED)
        struck_out = 0
        for player in random_players(rng, HISTORIES):
            data = encode.script(player.vector, player.events)
            everybody = set(range(len(player.tables.partitions)))
            for number in everybody:
                if not player.tables.is_system(number):
                    purged = without(data, everybody - circles.circle(player.tables, number))
                    struck_out += len(data) - len(purged)
                    self.assertEqual(sheets(purged, number), sheets(data, number))
        self.assertGreater(struck_out, 1_000)

    def test_nothing_else_is_on_it(self) -> None:
        """The same own rows, ticks, events, answers and area give the same sheet, whatever all else is."""
        rng = Random(SEED)
        for player in random_players(rng, HISTORIES):
            data = encode.script(player.vector, player.events)
            vector, events = split_script(data)
            block = read_output(model_output(data, areas=True))["fenced"]
            for number in range(len(player.tables.partitions)):
                disturbance = Disturbance(rng, number)
                changed = disturbance.history(read_group(vector, number), events, block)
                other_vector = disturbance.vector(player.records)
                self.assertEqual(both_forms(other_vector, *changed, number),
                                 both_forms(vector, events, block, number))


class Contents(unittest.TestCase):
    """What a sheet says."""

    def test_the_words_of_the_course(self) -> None:
        _, text = sheets(script_of(COURSE), GROUPS.index("dosimeter"))
        for words in ("Sheet of dosimeter\n", "Partition: number 3, standard\n", "Area: 64 bytes\n",
                      "Port 3: aim, destination of a sampling channel, messages of up to 8 bytes\n",
                      "Interrupt lines: 3\n", "At MEM_PROTECTION: warm_reset, logged\n",
                      "Plan 0, a frame of 20,000 µs\n", "own slots: 16,000 to 19,000\n",
                      '1-3  16,000 µs  store  offsets 0 to 2, bytes 61 69 6d "aim"\n',
                      "4  16,000 µs  XM_create_sampling_port  address 0, length 3, longest 8, direction destination\n",
                      "= port 3 (aim) is open  (3 0 0)\n", "= 8 bytes, sent at 10,500 µs  (8 10500 0)\n",
                      "12  23,500 µs  interrupt line  3\n", "pending: message, line 3; not hidden: line 3",
                      "outside the area, MEM_PROTECTION; health monitor: warm_reset, it starts again",
                      "! XM_INVALID_PARAM: the port is not its own, not open or of the other type",
                      "= the target is READY  (1 0 0)\n", "0010  4e 30 34 37 45 30 31 34 00 ",
                      "0020  03 00 "):
            self.assertIn(words, text)

    def test_queues_and_refusals(self) -> None:
        _, text = sheets(script_of(EXAMPLES / "ports.xm"), 1)
        for words in ("Port 3: all, destination of a queuing channel, messages of up to 4 bytes, 2 messages at most\n",
                      "! XM_INVALID_CONFIG: longest message or direction is not that of the configuration  (-5 0 0)\n",
                      "! XM_NO_ACTION: the channel holds no message  (-1 0 0)\n",
                      "! XM_NOT_AVAILABLE: the queue is empty  (-7 0 0)\n",
                      "= 2 messages in the queue  (0 2 0)\n", "= 3 bytes, sent at 1,000 µs; 1 message left  (3 1000 1)\n",
                      '= bytes 6f 6e 65 "one"'):
            self.assertIn(words, text)

    def test_faults_and_the_log(self) -> None:
        faults = script_of(EXAMPLES / "faults.xm")
        for number, words in ((0, "health monitor: halt, it is HALTED"), (2, "! not on the processor: its slot does not"),
                              (2, "! system halted: the whole system is halted"),
                              (5, "= at 200 µs MEM_PROTECTION of partition 2, action suspend; 2 left in the log"),
                              (5, "XM_resume_partition  target partition 2\n")):
            self.assertIn(words, sheets(faults, number)[1])

    def test_long_lines_are_broken(self) -> None:
        """No line of the plain text is wider than WIDTH, and the numbers of an answer stay together."""
        for length in range(WIDTH // 2, 2 * WIDTH):
            answer = ("word " * length)[:length]
            lines = event_lines((Entry(1, 1, 5, "load", answer, answer, "1 22 333", False),))
            self.assertLessEqual(max(map(len, lines)), WIDTH)
            self.assertEqual([line.endswith("(1 22 333)") for line in lines], [False] * (len(lines) - 1) + [True])

    def test_every_refusal_has_its_reason(self) -> None:
        """The reasons are for what a call can be refused for, and for nothing else; XM_PERM_ERROR has one for all calls."""
        can_be = {(call, code) for call, codes in CALL_CAUSES.items() for code in codes}
        system_calls = {(call, -4) for call, codes in CALL_CAUSES.items() if codes.get(-4) == ("system call",)}
        self.assertEqual(set(CALL_REASONS), can_be - system_calls)

    def test_plans(self) -> None:
        plans = script_of(EXAMPLES / "plans.xm")
        page, text = sheets(plans, 1)
        self.assertIn("Plan 1, a frame of 2,000 µs\n  [" + "." * 80 + "]\n  own slots: none\n", text)
        self.assertEqual(page.count('class="slot"'), 1)
        self.assertEqual(page.count('class="ground"'), 2)
        self.assertIn(">100 to 800</text>", page)
        self.assertIn("= plan 0 is in force, plan 1 follows; 100 µs of the frame are in no slot", sheets(plans, 0)[1])

    def test_the_time_is_that_of_the_last_tick_taken(self) -> None:
        text = "partition A standard 1\nplan 10\nslot A 0 10\nevents\nA get_time\ntick 7\ntick 5\ntick 2_000_000\nA get_time\n"
        self.assertIn("2  7 µs  XM_get_time\n", sheets(encode_script(text.encode()), 0)[1])

    def test_pages_stand_alone(self) -> None:
        """Sheets of random histories are whole pages without scripts or anything from elsewhere."""
        for player in random_players(Random(SEED), 10):
            data = encode.script(player.vector, player.events)
            for number in range(len(player.tables.partitions)):
                page, _ = sheets(data, number)
                reader = Balance()
                reader.feed(page)
                self.assertEqual(reader.open, [])
                self.assertLessEqual({"html", "style", "svg", "table"}, reader.tags)
                self.assertFalse(reader.tags & {"script", "link", "img", "iframe"})
                self.assertFalse(reader.attributes & {"src", "href", "onload", "onclick"})
                self.assertNotIn("http", page)

    def test_names_are_escaped(self) -> None:
        text = 'partition "<b>&\\"" standard 1\nplan 1\nslot @0 0 1\nevents\n@0 get_time\n'
        page, _ = sheets(encode_script(text.encode()), 0)
        self.assertIn("&lt;b&gt;&amp;", page)
        self.assertNotIn("<b>", page)


class Outputs(unittest.TestCase):
    """What cannot give a sheet."""

    def test_outputs_that_are_none(self) -> None:
        for text, reason in (("", "empty"), ("bad\n", "bad"), ("refused 21 26\n", "number 21 at byte 26"),
                             ("0 0 0\n", "line 1 is nothing"), ("fenced\n0 0\n", "line 2 is nothing"),
                             ("fenced\nfenced\n", "line 2 is nothing"),
                             ("fenced\narea 0 0\n", "line 2 is nothing"),
                             ("fenced\narea 0 00\n0 0 0\n", "line 3 is nothing")):
            with self.subTest(text), self.assertRaisesRegex(NoOutput, reason):
                read_output(text)

    def test_an_output_of_another_script(self) -> None:
        course, ports = script_of(COURSE), script_of(EXAMPLES / "ports.xm")
        vector, events = split_script(course)
        block = read_output(model_output(ports))["fenced"]
        with self.assertRaisesRegex(NoSheet, "do not belong together"):
            make_sheet(read_group(vector, 0), events, block, with_area=False)


class CommandLine(unittest.TestCase):
    def setUp(self) -> None:
        folder = tempfile.TemporaryDirectory()
        self.addCleanup(folder.cleanup)
        self.folder = Path(folder.name)
        self.binary = self.folder / "course.bin"
        self.areas = self.folder / "areas.out"
        self.plain = COURSE.with_suffix(".out")
        self.binary.write_bytes(script_of(COURSE))
        self.areas.write_text(model_output(script_of(COURSE), areas=True))

    def test_text_or_bytes_page_or_text(self) -> None:
        number = GROUPS.index("camera")
        page, text = sheets(script_of(COURSE), number)
        out = self.folder / "sheet.html"
        run = run_tool("xmsheet", self.binary, self.areas, "--group", "camera", "--area", "-o", out)
        self.assertEqual((run.returncode, run.stdout, out.read_text()), (0, b"", page))
        run = run_tool("xmsheet", COURSE, self.areas, "--group", "@2", "--area", "--text", "--board", "paged")
        self.assertEqual((run.returncode, run.stdout.decode()), (0, text))

    def test_outputs_without_areas(self) -> None:
        """They do for a sheet without the area, and give the same one as outputs with areas."""
        runs = [run_tool("xmsheet", COURSE, output, "--group", "dosimeter") for output in (self.plain, self.areas)]
        self.assertEqual(runs[0].stdout, runs[1].stdout)
        self.assertNotIn(b"Area at the end", runs[0].stdout)
        run = run_tool("xmsheet", COURSE, self.plain, "--group", "dosimeter", "--area")
        self.assertEqual((run.returncode, run.stdout), (1, b""))
        self.assertIn(b"has no areas: run the program with the argument 'areas'", run.stderr)

    def test_errors(self) -> None:
        wrong = self.folder / "wrong.xm"
        wrong.write_text("partition A standard 16\nplan\n")
        refused, half = self.folder / "refused.out", self.folder / "half.out"
        refused.write_text("refused 12 0\n")
        half.write_text(self.plain.read_text().split("paged")[0])
        for arguments, message in (
                ((COURSE, self.plain, "--group", "nobody"), "no partition is called 'nobody'"),
                ((COURSE, self.plain, "--group", "@4"), "no partition is called '@4'"),
                ((COURSE, self.plain, "--group", '"a'), "the quote is not closed"),
                ((COURSE, refused, "--group", "camera"), f"{refused}: it says that the vector is refused"),
                ((COURSE, half, "--group", "camera", "--board", "paged"), f"{half}: the output has no block 'paged'"),
                ((COURSE, EXAMPLES / "ports.out", "--group", "camera"), "do not belong together"),
                ((self.plain, self.plain, "--group", "camera"), "this is no script"),
                ((wrong, self.plain, "--group", "A"), f"{wrong}:2:5: the frame is missing"),
                ((COURSE, self.folder / "none", "--group", "camera"), "No such file or directory")):
            with self.subTest(message):
                run = run_tool("xmsheet", *arguments)
                self.assertEqual((run.returncode, run.stdout), (1, b""))
                self.assertIn(message, run.stderr.decode())
                self.assertEqual(run.stderr.count(b"\n"), 1)
