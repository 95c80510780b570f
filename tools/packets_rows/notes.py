"""What is written on standard error of captures that are refused, and of packets that are passed over, by
docs/PACKETS.md, docs/CAPTURES.md and the registry of link types (tcpdump.org/linktypes.html)."""

import frames
from worked import Worked

DATAGRAM = frames.DATAGRAM[28:]
LINE = "    1   0.000000 10.0.0.1.53 > 10.0.0.2.4000 UDP len 3  bad checksum"
# LINKTYPE_NULL: an IPv4 packet, one of address family 7, and one that ends in its header.
NULL = (f"02000000{DATAGRAM}", f"07000000{DATAGRAM}", "0200")
# A link that isn't read, by its number in the registry, and its name.
LINKS = (
    (9, ": it is PPP"),
    (105, ": it is IEEE802_11, of wireless networks"),
    (127, ": it is IEEE802_11_RADIOTAP, of wireless networks"),
    (189, ": it is USB_LINUX"),
    (220, ": it is USB_LINUX_MMAPPED"),
    (251, ": it is BLUETOOTH_LE_LL"),
    (252, ": it is WIRESHARK_UPPER_PDU, of exported packets"),
    (253, ": it is NETLINK"),
    (147, ""),
)
EMPTY = ("no packets", "")


def passed_over(links, long, without_frame):
    return f"passed over: {links} of other links, {long} too long, {without_frame} without a frame"


def of_no_frame():
    note = passed_over(0, 0, 2)
    yield ["show", "--skip"], [LINE, note]
    yield ["show", "--skip", "--only", "arp"], [note]
    # After the file header and the first record.
    at = 24 + 16 + 4 + len(DATAGRAM) // 2
    yield ["show"], [LINE, f"packet 2, byte {at}: a packet has no ether type"]


def of_some_frames():
    # Those that are passed over, and those of which no byte was captured, have a number, too.
    note = passed_over(0, 0, 2)
    yield ["show", "--skip", "--width", "5"], ["    2", "    5", note]
    yield ["show", "--skip", "--width", "5", "--count", "1"], ["    2", passed_over(0, 0, 1)]


def of_another_link(number, name):
    note = passed_over(2, 0, 0)
    rows = [
        (["show"], [f"packet 1, byte 24: link type {number} is not read{name}; --skip passes over its packets"]),
        (["json", "--skip"], [note]),
        (["summary", "--skip"], [*EMPTY, note, note]),
    ]
    return Worked(f"link_type_{number}", number, ["0102", "03"], rows)


CAPTURES = (
    Worked("no_frame", 0, NULL, of_no_frame()),
    Worked("some_frames", 0, [NULL[1], NULL[0], "", NULL[2], NULL[0]], of_some_frames()),
    *(of_another_link(number, name) for number, name in LINKS),
    # What is no capture, by its first bytes.
    Worked("empty", 1, (), [(["show"], ["no capture file: the input is empty"])], end=0),
    Worked("no_packets", 1, (), [(["show"], []), (["json"], []), (["summary"], ["no packets"])]),
)
