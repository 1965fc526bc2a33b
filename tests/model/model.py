#!/usr/bin/env python3
"""An independent model of the partitioning core: reads a script, prints its answers.

    model.py < script > output
"""

from __future__ import annotations

import sys

import script
from limits import WHOLE


def main() -> None:
    sys.stdout.write(script.run(sys.stdin.buffer.read(), WHOLE).text())


if __name__ == "__main__":
    main()
