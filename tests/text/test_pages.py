"""The pages on texts and sheets say what the tools do."""

from __future__ import annotations

import re
import unittest

from common import COURSE, ROOT, run_tool, script_of

from test_errors import START, VECTOR, refusal
from test_log import log
from test_sheets import GROUPS, sheets
from xm import names
from xm.encoder import encode_script, encode_vector
from xm.refusal import MEANINGS, refusal_lines
from xm.script import Record
from xm.wording import REFUSALS

TEXT_PAGE = (ROOT / "docs" / "TEXT.md").read_text()
SHEETS_PAGE = (ROOT / "docs" / "SHEETS.md").read_text()
MACHINE_PAGE = (ROOT / "docs" / "MACHINE.md").read_text()
VECTOR_PAGE = (ROOT / "docs" / "VECTOR.md").read_text()
MISTAKE = re.compile(r"^\| `([^`]+)` \| `([^`]+)` \|$", re.M)


def blocks(page: str) -> list[str]:
    """The blocks of a page that are shown as they are."""
    return re.findall(r"^```\n(.*?)^```$", page, re.M | re.S)


class TextPage(unittest.TestCase):
    def test_the_example_is_the_shipped_script(self) -> None:
        shipped = (ROOT / "crates" / "xmscript" / "stdin").read_bytes()
        self.assertEqual(encode_script(blocks(TEXT_PAGE)[0].encode()), shipped)

    def test_the_mistakes(self) -> None:
        """Each mistake that is a line gets the message beside it."""
        mistakes = MISTAKE.findall(TEXT_PAGE.split("## Errors")[1])
        self.assertGreater(len(mistakes), 10)
        for line, message in mistakes:
            with self.subTest(line):
                start = START if line.startswith("A ") else VECTOR
                self.assertEqual(refusal(f"{start}{line}".encode())[2], message)

    def test_the_calls(self) -> None:
        """Every call is in the table, and MACHINE.md has it under the same number and name."""
        for call in names.CALLS:
            row = f"| {call.number} | `{call.name}` | {', '.join(call.arguments)}".rstrip() + " |"
            self.assertIn(row, TEXT_PAGE)
            if call.number != names.GET_IRQS:
                self.assertIn(f"| {call.number} | XM_{call.name} |", MACHINE_PAGE)

    def test_events_and_actions(self) -> None:
        for number, fault in enumerate(names.FAULTS):
            self.assertRegex(TEXT_PAGE, f"`{fault}` {number}[,.]")
            self.assertIn(f"| {number} | {fault} |", MACHINE_PAGE)
        for number, action in enumerate(names.ACTIONS):
            self.assertIn(f"`{action}`", TEXT_PAGE)
            self.assertIn(f"| {number} | {action.replace('_', ' ')} |", MACHINE_PAGE)

    def test_refusals(self) -> None:
        """Codes and names of the events' refusals are those of MACHINE.md, the vector's numbers those of VECTOR.md."""
        rows = re.findall(r"^\| (-\d+) \| ([^(|]+?) (?:\(.*?\) )?\|", MACHINE_PAGE, re.M)
        self.assertEqual([(str(code), name) for code, (name, _) in REFUSALS.items()], rows)
        numbers = re.findall(r"^\| (\d\d) \| (?:frame|field|relation) \|", VECTOR_PAGE, re.M)
        self.assertEqual(list(MEANINGS), [int(number) for number in numbers])

    def test_the_spoiled_partition(self) -> None:
        line = re.search(r"`(record 2 \w+)`", TEXT_PAGE)[1]
        self.assertEqual(encode_vector(f"header none\n{line}".encode()), Record(2, b"\x07\x10\x00A").encoded())


    def test_the_log(self) -> None:
        """The lines of the log are there in one piece, and the refused text gets the three lines."""
        shown, refused = blocks(TEXT_PAGE)[-2:]
        self.assertIn(shown, "".join(f"{line}\n" for line in log(script_of(COURSE))))
        text = b"partition A standard 2000\nplan 1000\nslot A 0 1000\n"
        self.assertEqual("\n".join(refusal_lines(encode_vector(text), 21, 11, text)) + "\n", refused)


class SheetsPage(unittest.TestCase):
    def test_the_refusal_that_it_shows(self) -> None:
        _, text = sheets(script_of(COURSE), GROUPS.index("dosimeter"))
        self.assertIn(blocks(SHEETS_PAGE)[0], text)

    def test_the_options_are_there(self) -> None:
        told = run_tool("xmsheet", "--help").stdout.decode()
        for option in ("--group", "--board", "--area", "--text", "-o"):
            self.assertIn(option, told)
            self.assertIn(f"`{option}", SHEETS_PAGE)
