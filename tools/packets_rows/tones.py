"""Forms of lines: times, columns, and colors by ECMA-48, 8.3.117 (SGR). They are written by hand,
by docs/PACKETS.md."""

import frames
from worked import Worked, shown

# Faint, cyan, green, bold red, yellow, and the end of each.
SEQUENCES = {"d": "2", "c": "36", "g": "32", "r": "1;31", "y": "33", "e": "0"}


def toned(text):
    return text.format(**{name: f"\x1b[{code}m" for name, code in SEQUENCES.items()})


LINE = "    1   0.000000 10.0.0.1.53 > 10.0.0.2.4000 UDP len 3  bad checksum"
COLORED = "{d}    1   0.000000{e} 10.0.0.1.53 > 10.0.0.2.4000 {c}UDP{e} len 3  {r}bad checksum{e}"
# Words, and the line. Standard output is no terminal.
FORMS = (
    ((), LINE),
    (("--color", "auto"), LINE),
    (("--color", "never"), LINE),
    (("--color", "always"), COLORED),
    (("--utc",), LINE.replace("  0.000000", "2023-11-14T22:13:20.000000Z")),
    (
        ("--utc", "--color", "always"),
        COLORED.replace("  0.000000", "2023-11-14T22:13:20.000000Z"),
    ),
    (("--width", "1"), " "),
    (("--width", "25"), "    1   0.000000 10.0.0.1"),
    (("--width", str(len(LINE) - 1)), LINE[:-1]),
    (("--width", str(len(LINE))), LINE),
    (("--width", str(len(LINE) + 1)), LINE),
    # Sequences take no columns, and end before the line does.
    (("--width", "25", "--color", "always"), "{d}    1   0.000000{e} 10.0.0.1{c}{e}{r}{e}"),
    (
        ("--width", str(len(LINE) - 6), "--color", "always"),
        COLORED.replace("bad checksum", "bad ch"),
    ),
    (("--utc", "--width", "40"), "    1 2023-11-14T22:13:20.000000Z 10.0.0"),
)
# The line of each packet, after its number and time.
TONED = (
    "10.0.0.1.443 > 10.0.0.2.51234 {c}TCP{e} [S] seq 17 win 65535 len 0  {g}good{e}",
    "10.0.0.1.53 > 10.0.0.2.5353 {c}UDP{e} len 4  {r}bad checksum{e}",
    "{c}ARP{e} who has 10.0.0.2? tell 10.0.0.1",
    "vlan 5 2001:db8::1 > 2001:db8::2 {c}ICMPv6{e} echo request id 1 seq 1 len 8  {g}good{e}",
    "10.0.0.1 > 10.0.0.2 {c}UDP{e} {y}fragment at 0{e} len 16, more follow (id 0x1234)",
    "10.0.0.1 > 10.0.0.2 {c}UDP{e} {y}fragment at 16{e} len 16, last (id 0x1234), "
    "completes a message of 32 bytes begun in packet 5: 53 > 5353 {c}UDP{e} len 24  {g}good{e}",
    "02:00:00:00:00:01 > 02:00:00:00:00:02 {c}IPv4{e}  {r}refused:{e} IPv4 header cut off: "
    "20 bytes needed at byte 14, 7 there",
    "10.0.0.1 > 10.0.0.2 {c}TCP{e}  {r}refused:{e} TCP data offset 4 below 5",
    "10.0.0.2.7 > 10.0.0.1.9 {c}UDP{e} len 2  no checksum",
    "10.0.0.1 > 10.0.0.2 {c}UDP{e} {y}fragment at 0{e} len 16, more follow (id 0x1235)",
)


def colored():
    for line, rest in zip(shown([""] * len(TONED)), TONED, strict=True):
        yield toned(f"{{d}}{line.rstrip()}{{e}} {rest}")


CAPTURES = (
    Worked(
        "forms",
        1,
        [frames.DATAGRAM],
        [(["show", *words], [toned(line)]) for words, line in FORMS],
    ),
    Worked("tones", 1, frames.MIXED, [(["show", "--color", "always"], colored())]),
)
