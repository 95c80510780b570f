"""Which packets a run takes up to a limit, written by hand."""

import frames
from worked import Worked

# Words, and the numbers of the packets that are shown.
OF_MIXED = (
    (("--count", "1"), (1,)),
    (("--count", "3"), (1, 2, 3)),
    (("--count", "10"), (1, 2, 3, 4, 5, 6, 7, 8, 9, 10)),
    (("--count", "4294967295"), (1, 2, 3, 4, 5, 6, 7, 8, 9, 10)),
    # Packets that are kept back are taken, too.
    (("--only", "udp", "--count", "5"), (2, 5)),
    (("--count", "2", "--only", "arp"), ()),
    (("--duration", "1", "--count", "4"), (1, 2, 3, 4)),
)
# A datagram is complete with the sixth packet, and another one starts with the tenth.
OPEN = ((4, 0), (5, 1), (6, 0), (9, 0), (10, 1))
# When packets come, the second one before the first.
SECONDS = (1, 0, 2.5, 3.999999, 4, 1)
OF_SECONDS = (
    (("--duration", "1"), (1, 2)),
    (("--duration", "2"), (1, 2, 3)),
    (("--duration", "3"), (1, 2, 3, 4)),
    (("--duration", "4"), (1, 2, 3, 4, 5, 6)),
    (("--duration", "3", "--count", "3"), (1, 2, 3)),
    (("--duration", "3", "--only", "arp"), (3,)),
    # Times of a limit are those of the first packet, also where it is kept back.
    (("--duration", "3", "--only", "udp"), (2,)),
)
# Words of tcpdump, and without a command those of `show`.
OF_TCPDUMP = (
    (["-c", "2", "--width", "5"], ["    1", "    2"]),
    (["-nn", "-c", "1", "--width", "5", "-r"], ["    1"]),
    (["-n", "--only", "udp", "-c", "5", "--width", "5", "--read"], ["    2", "    5"]),
    (["show", "--width", "5", "-c3", "-n", "-r"], ["    1", "    2", "    3"]),
    (["summary", "--only", "gre", "-c", "4", "-r"], ["no packets"]),
    (["json", "--only", "gre", "-n", "-r"], []),
)
# The times of these packets.
FORMS = (
    (("--time", "relative"), ("  0.000000", " -1.000000", "  1.500000", "  2.999999", "  3.000000", "  0.000000")),
    (("--time", "delta"), ("  0.000000", " -1.000000", "  2.500000", "  1.499999", "  0.000001", " -3.000000")),
    (
        ("--time", "epoch"),
        (
            "1700000001.000000",
            "1700000000.000000",
            "1700000002.500000",
            "1700000003.999999",
            "1700000004.000000",
            "1700000001.000000",
        ),
    ),
    (
        ("--time", "utc"),
        (
            "2023-11-14T22:13:21.000000Z",
            "2023-11-14T22:13:20.000000Z",
            "2023-11-14T22:13:22.500000Z",
            "2023-11-14T22:13:23.999999Z",
            "2023-11-14T22:13:24.000000Z",
            "2023-11-14T22:13:21.000000Z",
        ),
    ),
)
# The packet before is one that isn't shown.
DELTA_OF_ARP = ["show", "--width", "16", "--time", "delta", "--only", "arp"], ["    3   2.500000"]
CUT = (
    (["--count", "2"], ["    1", "    2"]),
    ([], ["    1", "    2", "packet 3, byte 156: the capture ends within a packet"]),
)


def met(rows):
    """The numbers of packets alone: lines are cut to five columns."""
    for words, numbers in rows:
        yield ["show", "--width", "5", *words], [f"{number:5}" for number in numbers]


def still_open():
    for count, messages in OPEN:
        note = ["", f"messages open at the end: {messages}"] if messages else []
        yield ["summary", "--only", "gre", "--count", str(count)], ["no packets", *note]


def times():
    for words, texts in FORMS:
        width = 6 + max(len(text) for text in texts)
        yield ["show", "--width", str(width), *words], [f"{at + 1:5} {text}" for at, text in enumerate(texts)]
    yield DELTA_OF_ARP


def cut():
    for words, lines in CUT:
        yield ["show", "--width", "5", *words], lines


MIXED = frames.MIXED
CAPTURES = (
    Worked("counted", 1, MIXED, [*met(OF_MIXED), *still_open(), *OF_TCPDUMP]),
    Worked("timed", 1, [MIXED[at] for at in (0, 1, 2, 3, 0, 1)], [*met(OF_SECONDS), *times()], seconds=SECONDS),
    Worked("cut_third", 1, MIXED[:3], cut(), end=24 + 16 + 54 + 16 + 46 + 20),
)
