"""The bytes of packets, as `tcpdump -X` and `tcpdump -XX` write them. Two packets are written out by hand; the others are put together
by Python's own formats."""

from worked import Worked

# A frame of 42 bytes, and the same without its Ethernet header, by hand.
ARP = "ffffffffffff020000000001080600010800060400010200000000010a0000010000000000000a000002"
LINE = "    1   0.000000 ARP who has 10.0.0.2? tell 10.0.0.1"
AFTER_LINK = [
    LINE,
    "\t0x0000:  0001 0800 0604 0001 0200 0000 0001 0a00  ................",
    "\t0x0010:  0001 0000 0000 0000 0a00 0002            ............",
]
FRAME = [
    LINE,
    "\t0x0000:  ffff ffff ffff 0200 0000 0001 0806 0001  ................",
    "\t0x0010:  0800 0604 0001 0200 0000 0001 0a00 0001  ................",
    "\t0x0020:  0000 0000 0000 0a00 0002                 ..........",
]
# An IPv4 packet of which 1 byte is in the last line, and a frame that is shorter than its Ethernet header.
TEXT = "02000000000202000000000108004500002500010000401166c50a0000010a00000200350fa000110000" + b"Ab ~\x7f\x80!'9".hex()
SHORT = "0200000000020200000000"


def dumped(data):
    for at in range(0, len(data), 16):
        part = data[at : at + 16]
        columns = " ".join(part[it : it + 2].hex() for it in range(0, len(part), 2))
        letters = "".join(chr(it) if 33 <= it <= 126 else "." for it in part)
        yield f"\t{at:#06x}:  {columns:<39}  {letters}"


def of_text():
    line = "    1   0.000000 10.0.0.1.53 > 10.0.0.2.4000 UDP len 9  no checksum"
    data = bytes.fromhex(TEXT)
    rows = [*dumped(data[14:])]
    # By hand.
    assert rows[1] == "\t0x0010:  0a00 0002 0035 0fa0 0011 0000 4162 207e  .....5......Ab.~"
    assert rows[2] == "\t0x0020:  7f80 2127 39                             ..!'9"
    yield ["-x"], [line, *rows]
    yield ["-xX"], [line, *dumped(data)]
    yield ["--bytes", "--width", "16"], [line[:16], *rows]


# A packet of a link without Ethernet addresses.
RAW = TEXT[28:]
RAW_LINE = "    1   0.000000 10.0.0.1.53 > 10.0.0.2.4000 UDP len 9  no checksum"
REFUSED = "    1   0.000000 refused: Ethernet header cut off: 14 bytes needed at byte 0, 11 there"
CAPTURES = (
    Worked("bytes_of_arp", 1, [ARP], [(["-x"], AFTER_LINK), (["-X"], AFTER_LINK), (["show", "-xx"], FRAME), (["-XX"], FRAME)]),
    Worked("bytes_of_text", 1, [TEXT], list(of_text())),
    Worked("bytes_of_short", 1, [SHORT], [(["-x"], [REFUSED]), (["-xx"], [REFUSED, *dumped(bytes.fromhex(SHORT))])]),
    Worked("bytes_of_raw", 101, [RAW], [(it, [RAW_LINE, *dumped(bytes.fromhex(RAW))]) for it in (["-x"], ["-xx"])]),
)
