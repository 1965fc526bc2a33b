"""A vector's refusal in words: which rule, which record, and which line of the text."""

from __future__ import annotations

from .encoder import record_lines
from .script import (ACTION, CHANNEL, HEAD, HEADER, IPVI, LINE_OWNER, PARTITION, PLAN, PORT, SLOT, split_vector)

MEANINGS = {
    12: "the record is cut",
    13: "the kind is none of 1 to 9",
    14: "the kind does not have bodies of this length",
    15: "a record of this kind is not in turn",
    16: "the vector ends and something is still owed",
    21: "a field has a value that is not allowed",
    31: "one too many: slot, channel or port",
    32: "said before",
    33: "the slot starts before the end of the one before it, or ends after its frame",
}

KINDS = {HEADER: "HEADER", PARTITION: "PARTITION", PLAN: "PLAN", SLOT: "SLOT", CHANNEL: "CHANNEL", PORT: "PORT",
         IPVI: "IPVI", LINE_OWNER: "LINE", ACTION: "ACTION"}

# Where the fields of each kind begin in its body, and what they are.
FIELDS = {
    HEADER: {0: "number of partitions", 1: "number of plans"},
    PARTITION: {0: "class", 1: "size", 3: "name"},
    PLAN: {0: "frame"},
    SLOT: {0: "partition", 1: "start", 5: "duration"},
    CHANNEL: {0: "type", 1: "longest message", 3: "depth"},
    PORT: {0: "partition", 1: "direction", 2: "name"},
    IPVI: {0: "number", 1: "source", 2: "mask of receivers"},
    LINE_OWNER: {0: "line", 1: "owner"},
    ACTION: {0: "scope", 1: "event", 2: "action", 3: "log flag"},
}


def refusal_lines(vector: bytes, number: int, place: int, text: bytes | None) -> list[str]:
    """What a refusal means, the record and the field at its place, and the line of the text that the record is from."""
    lines = [f"refused {number} at byte {place}: {MEANINGS.get(number, 'of an unknown sort')}"]
    start = 0
    records, _ = split_vector(vector)
    for count, record in enumerate(records, 1):
        end = start + HEAD.size + len(record.body)
        if start <= place < end:
            lines.append(f"  record {count}, {KINDS.get(record.kind, f'of kind {record.kind}')}"
                         + field_in_words(record.kind, place - start - HEAD.size))
            break
        start = end
    if text is not None and place < len(vector):
        lines += text_lines(text, place)
    return lines


def field_in_words(kind: int, at: int) -> str:
    """The field that begins at a place of a body, if one does."""
    field = FIELDS.get(kind, {}).get(at)
    return f", its {field}" if field else ""


def text_lines(text: bytes, place: int) -> list[str]:
    """The line of a text that gave a byte of the vector, as it is written."""
    for line, start, end in record_lines(text):
        if start <= place < end:
            if line is None:
                return ["  the header, which counts the partitions and the plans"]
            written = text.decode("utf-8-sig").split("\n")[line - 1].strip()
            return [f"  line {line}: {written}"]
    return []
