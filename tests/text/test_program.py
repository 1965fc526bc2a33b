"""The whole way as a user goes it: text to bytes, bytes through the program, output to sheets and logs."""

from __future__ import annotations

import tempfile
import unittest
from itertools import product
from pathlib import Path

from common import COURSE, EXAMPLES, PROGRAM, run_program, run_tool

from xm.output import BOARDS

SCRIPTS = (COURSE, EXAMPLES / "neighbours" / "quiet.xm", EXAMPLES / "neighbours" / "wild.xm")
FORMS = ((), ("--text",))


@unittest.skipUnless(PROGRAM.exists(), "the program is not built")
class Program(unittest.TestCase):
    @classmethod
    def setUpClass(cls) -> None:
        folder = tempfile.TemporaryDirectory()
        cls.addClassCleanup(folder.cleanup)
        cls.folder = Path(folder.name)
        for path in SCRIPTS:
            data = run_tool("xmtext", "encode", path).stdout
            (cls.folder / f"{path.stem}.bin").write_bytes(data)
            (cls.folder / f"{path.stem}.out").write_text(run_program(data, "areas"))

    def sheet(self, path: Path, group: str, *options: str) -> bytes:
        """A group's sheet, with its area, for what the program printed."""
        run = run_tool("xmsheet", self.folder / f"{path.stem}.bin", self.folder / f"{path.stem}.out",
                       "--group", group, "--area", *options)
        self.assertEqual((run.returncode, run.stderr), (0, b""))
        return run.stdout

    def test_the_same_sheet_beside_other_neighbours(self) -> None:
        """Byte by byte, as a page and as text, on both boards; the neighbours' own sheets are others each time."""
        for group, board, form in product(("attitude", "beacon", "camera", "dosimeter"), BOARDS, FORMS):
            with self.subTest(group=group, board=board, form=form):
                found = {self.sheet(path, group, "--board", board, *form) for path in SCRIPTS}
                self.assertEqual(len(found), 1 if group in ("attitude", "dosimeter") else len(SCRIPTS))

    def test_the_log_of_what_it_printed(self) -> None:
        run = run_tool("xmlog", COURSE, self.folder / "course.out")
        self.assertIn("camera get_time                                   ! not on the processor", run.stdout.decode())

    def test_a_refused_vector_is_traced_to_its_line(self) -> None:
        text = self.folder / "wide.xm"
        text.write_text("partition A standard 2000\nplan 1000\nslot A 0 1000\n")
        printed = run_program(run_tool("xmtext", "encode", text).stdout)
        run = run_tool("xmlog", text, "-", data=printed.encode())
        self.assertEqual(run.stdout.decode().splitlines()[-1], "  line 1: partition A standard 2000")
