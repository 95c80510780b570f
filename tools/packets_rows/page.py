"""What docs/PACKETS.md shows of a capture: what stands there is what has to be written."""

import os
import re

import frames
from worked import Worked

PAGE = os.path.join(os.path.dirname(os.path.abspath(__file__)), "..", "..", "docs", "PACKETS.md")
# The object, which the page cuts and wraps.
OBJECT = (
    '{"number":3,"time":1700000000500000000,"interface":0,"link_type":"Ethernet","len":42,"wire_len":42,'
    '"link":{"Ethernet2":{"source":"02:00:00:00:00:01","destination":"ff:ff:ff:ff:ff:ff",'
    '"ether_type":2054}},"link_exts":[],"net":{"Arp":{"hw_addr_type":1,"proto_addr_type":2048,'
    '"operation":1,"sender_hw_addr":"02:00:00:00:00:01","sender_protocol_addr":"10.0.0.1",'
    '"target_hw_addr":"00:00:00:00:00:00","target_protocol_addr":"10.0.0.2"}},"payload_len":0}'
)
# A command line of the capture of the page, and the block after it.
EXAMPLE = r"    \$ packets (.+) mixed\.pcap\n((?:(?:    .*)?\n)+)"


def whole(lines, rest):
    """The lines of a block, without what cuts them."""
    if lines[0].startswith("{"):
        shown = "".join(line.strip() for line in lines).split("..")
        assert re.fullmatch(".*".join(re.escape(it) for it in shown), OBJECT)
        return [OBJECT]
    return [line.replace("..", rest) if line.endswith(" ..") else line for line in lines]


def examples():
    """The words of each example, and the lines that they write."""
    with open(PAGE, encoding="utf-8") as page:
        text = page.read()
    (rest,) = re.findall(r"\(line 6 continues: `(.+)`\)", text)
    found = re.findall(EXAMPLE, text)
    assert [words.split()[0] for words, _ in found] == ["show", "json", "summary", "flows"]
    for words, block in found:
        lines = [line[4:] for line in block.rstrip("\n").split("\n")]
        yield words.split(), whole(lines, rest)


# An eighth of a second from one packet to the next.
SECONDS = [0.25 + at / 8 for at in range(len(frames.MIXED))]
CAPTURES = (Worked("page", 1, frames.MIXED, list(examples()), seconds=SECONDS),)
