"""The files that a tool reads and writes: a script as bytes or text, what the program printed for it, the result."""

from __future__ import annotations

import sys
from pathlib import Path

from .encoder import encode_script
from .output import Block, NoOutput, read_output
from .script import Event, NoScript, split_script
from .text import TextError


class Failure(Exception):
    """What the person who asked is told."""


def in_words(error: OSError) -> str:
    """A file that cannot be read or written, as one line."""
    return f"{error.filename or 'the output'}: {error.strerror}"


def read_bytes(name: str) -> bytes:
    """The bytes of a file; '-' is the standard input."""
    return sys.stdin.buffer.read() if name == "-" else Path(name).read_bytes()


def write_output(name: str | None, data: bytes) -> None:
    """Writes to a file; '-' and no name are the standard output."""
    if name is None or name == "-":
        sys.stdout.buffer.write(data)
        sys.stdout.buffer.flush()
    else:
        Path(name).write_bytes(data)


def is_text(name: str) -> bool:
    """Whether a script's file is its text."""
    return Path(name).suffix == ".xm"


def read_script(name: str) -> bytes:
    """A script's bytes, from bytes or from text."""
    data = read_bytes(name)
    if not is_text(name):
        return data
    try:
        return encode_script(data)
    except TextError as error:
        raise Failure(f"{name}:{error.line}:{error.column}: {error.message}") from error


def split(name: str, data: bytes) -> tuple[bytes, list[Event]]:
    """The vector and the events of a script of that name."""
    try:
        return split_script(data)
    except NoScript as error:
        raise Failure(f"{name}: this is no script: {error}") from error


def read_text(name: str) -> str:
    """What the program printed, as it is."""
    return read_bytes(name).decode(errors="replace")


def block_of(name: str, text: str, board: str) -> Block:
    """What was printed for a board, in an output of that name."""
    try:
        blocks = read_output(text)
    except NoOutput as error:
        raise Failure(f"{name}: {error}") from error
    if board not in blocks:
        raise Failure(f"{name}: the output has no block '{board}'")
    return blocks[board]
