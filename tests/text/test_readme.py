"""The readme shows what the program and the tools print, and links to pages that are there."""

from __future__ import annotations

import re
import unittest

from common import COURSE, ROOT, script_of

from test_log import log
from test_sheets import GROUPS, sheets

PAGES = (ROOT / "README.md", *sorted((ROOT / "docs").glob("*.md")))
README = PAGES[0].read_text()
LINK = re.compile(r"\]\((?!https?:)([^)#]*)(?:#([^)]*))?\)")


def blocks(page: str) -> list[str]:
    """The blocks of a page that stand four letters in."""
    found = re.findall(r"(?:^    .*\n|^\n(?=    ))+", page, re.M)
    return [re.sub(r"^    ", "", block, flags=re.M).strip("\n") for block in found]


def block_of(start: str) -> str:
    """The readme's block that begins with some words."""
    block, = (block for block in blocks(README) if block.lstrip().startswith(start))
    return block


def heading_anchors(page: str) -> set[str]:
    """The anchors of a page's headings, as a browser is given them."""
    headings = re.findall(r"^#+ (.*)$", page, re.M)
    return {re.sub(r"[^\w\- ]", "", heading.lower()).replace(" ", "-") for heading in headings}


class Readme(unittest.TestCase):
    def test_the_shipped_script_prints_it(self) -> None:
        printed = (ROOT / "crates" / "xmscript" / "stdout").read_text()
        self.assertEqual(block_of("fenced") + "\n", printed)

    def test_the_lines_of_the_course_are_in_it(self) -> None:
        """In their order, and up to blanks and comments."""
        lines = iter([" ".join(line.split("#")[0].split()) for line in COURSE.read_text().splitlines()])
        for line in filter(None, block_of("partition dosimeter").splitlines()):
            self.assertIn(" ".join(line.split()), lines)

    def test_the_log(self) -> None:
        lines = log(script_of(COURSE))
        self.assertIn(block_of("111"), "\n".join(lines))
        self.assertIn(f"Of its {len(lines)} lines", README)

    def test_the_sheet(self) -> None:
        _, text = sheets(script_of(COURSE), GROUPS.index("dosimeter"))
        self.assertIn(block_of("15  36,200"), text)


class Links(unittest.TestCase):
    def test_they_lead_somewhere(self) -> None:
        """Every link of every page: the file is there, and so is the heading."""
        for page in PAGES:
            for path, anchor in LINK.findall(page.read_text()):
                with self.subTest(page=page.name, link=f"{path}#{anchor}"):
                    target = (page.parent / path).resolve() if path else page
                    self.assertTrue(target.exists())
                    if anchor:
                        self.assertIn(anchor, heading_anchors(target.read_text()))
