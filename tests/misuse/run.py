#!/usr/bin/env python3
"""Misuses that the compiler must refuse before anything is proved.

A sample is an edit of the repository's own sources. It is applied to a copy, the crate is checked there,
and the check must fail with the error that the sample names.
"""
import pathlib
import re
import shutil
import subprocess
import sys
import tempfile

ROOT = pathlib.Path(__file__).resolve().parents[2]
FIELDS = re.compile(r"file: (.*)\nold: (.*)\nnew: (.*)\ncrate: (.*)\nerror: (.*)\n")


def refused(sample, copy):
    """Whether the sample's edit is refused with the sample's error."""
    path, old, new, crate, error = FIELDS.fullmatch(sample.read_text()).groups()
    source = copy / path
    text = source.read_text()
    if text.count(old) != 1:
        return f"its old text stands {text.count(old)} times in {path}"
    source.write_text(text.replace(old, new))
    check = subprocess.run(["rt", "check"], cwd=copy / "crates" / crate, capture_output=True, text=True)
    source.write_text(text)
    if check.returncode == 0:
        return "the check took it"
    if f"error[{error}]" not in check.stdout + check.stderr:
        return f"the check did not name {error}"
    return None


def main():
    passed = failed = 0
    with tempfile.TemporaryDirectory() as folder:
        copy = pathlib.Path(folder)
        shutil.copy(ROOT / "crates.txt", copy)
        shutil.copytree(ROOT / "crates", copy / "crates", ignore=shutil.ignore_patterns("out"))
        for sample in sorted(pathlib.Path(__file__).parent.glob("*.sample")):
            why = refused(sample, copy)
            print(f"misuse {sample.stem}: {why or 'refused, as it must be'}", flush=True)
            passed, failed = passed + (why is None), failed + (why is not None)
    print(f"{passed} passed, {failed} failed")
    sys.exit(1 if failed else 0)


if __name__ == "__main__":
    main()
