"""Captures of frames in hex, and what command lines write of them, by hand."""

import dataclasses
import struct

import expected

# From one packet to the next.
STEP = 1_500_000
# Stands in a row after a last line that no newline ends.
NO_NEWLINE = "\\ no newline at the end"


@dataclasses.dataclass
class Worked:
    """A classic capture, high byte first, in microseconds.

    `rows` has words before the file's name, and the lines that they write; `seconds` are the
    packets' times since the first, if not a step apart; `wire` how many bytes they had on the wire,
    if not those of the frames; of the file, `end` bytes are kept.
    """

    name: str
    link_type: int
    frames: list
    rows: list
    seconds: list = None
    wire: list = None
    end: int = None

    def data(self):
        parts = [struct.pack(">IHHiIII", 0xA1B2C3D4, 2, 4, 0, 0, 262144, self.link_type)]
        for at, frame in enumerate(self.frames):
            data = bytes.fromhex(frame)
            since = int(self.seconds[at] * 10**9) if self.seconds else at * STEP
            time = expected.BEGIN + since
            size = len(data)
            wire = self.wire[at] if self.wire else size
            parts.append(struct.pack(">IIII", time // 10**9, time % 10**9 // 1000, size, wire))
            parts.append(data)
        return b"".join(parts)[: self.end]


def shown(lines):
    """Lines with their numbers and times."""
    for at, line in enumerate(lines):
        microseconds = at * STEP // 1000
        yield f"{at + 1:5} {microseconds // 10**6:3}.{microseconds % 10**6:06} {line}"
