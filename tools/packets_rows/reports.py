"""Reports of captures, written by hand, and captures that are refused after some packets."""

import expected
import frames
from worked import Worked

TALKERS = """\
   packets   share           bytes   share     first  protocol
        13 100.0 %             442 100.0 %         1  all packets
        13 100.0 %             442 100.0 %         1  IPv4
        13 100.0 %             442 100.0 %         1  IP protocol 253

   packets   share           bytes   share     first  checksum
        13 100.0 %             442 100.0 %         1  none

 packets>        bytes>  <packets        <bytes       first        last    duration  TCP   conversation
        2            40         0             0    0.016500    0.018000    0.001500        10.0.0.12 > 10.0.0.99 IP protocol 253
        1            20         0             0    0.000000    0.000000    0.000000        10.0.0.1 > 10.0.0.99 IP protocol 253
        1            20         0             0    0.001500    0.001500    0.000000        10.0.0.2 > 10.0.0.99 IP protocol 253
        1            20         0             0    0.003000    0.003000    0.000000        10.0.0.3 > 10.0.0.99 IP protocol 253
        1            20         0             0    0.004500    0.004500    0.000000        10.0.0.4 > 10.0.0.99 IP protocol 253
        1            20         0             0    0.006000    0.006000    0.000000        10.0.0.5 > 10.0.0.99 IP protocol 253
        1            20         0             0    0.007500    0.007500    0.000000        10.0.0.6 > 10.0.0.99 IP protocol 253
        1            20         0             0    0.009000    0.009000    0.000000        10.0.0.7 > 10.0.0.99 IP protocol 253
        1            20         0             0    0.010500    0.010500    0.000000        10.0.0.8 > 10.0.0.99 IP protocol 253
        1            20         0             0    0.012000    0.012000    0.000000        10.0.0.9 > 10.0.0.99 IP protocol 253
and 2 more

first and last are seconds since 2023-11-14T22:13:20.000000Z

   packets   share  bytes of a frame
        13 100.0 %      32 to 63     ████████████████████████████████

earliest packet: 2023-11-14T22:13:20.000000Z
latest packet: 2023-11-14T22:13:20.018000Z, 0.018000 s later
on average 722.2 packets and 115556 bits a second
packets a second, by spans of 0.001953125 s: 1024 at most
█▄▄█▄▄█▄▄▄

passed over: 0 of other links, 1 too long, 0 without a frame
"""
OF_ARP = """\
   packets   share           bytes   share     first  protocol
         1 100.0 %              42 100.0 %         3  all packets
         1 100.0 %              42 100.0 %         3  Ethernet
         1 100.0 %              42 100.0 %         3  ARP

messages open at the end: 1

   packets   share  bytes of a frame
         1 100.0 %      32 to 63     ████████████████████████████████

earliest packet: 2023-11-14T22:13:20.003000Z
latest packet: 2023-11-14T22:13:20.003000Z, 0.000000 s later
packets a second, by spans of 0.001953125 s: 512 at most
█
"""
# Open messages are reported where their fragments aren't among the packets.
OF_GRE = """\
no packets

messages open at the end: 1
"""
CUT_OFF = "packet 2, byte 94: the capture ends within a packet"


def cut_off():
    """Of the file header, the first record, and two bytes of the second."""
    kinds, talk = ("Ethernet", "IPv4", "TCP"), "10.0.0.1 > 10.0.0.2"
    ports = {"source_port": 443, "destination_port": 51234, "syn": True, "fin": False, "rst": False}
    net = {"Ipv4": {"source": "10.0.0.1", "destination": "10.0.0.2", "protocol": 6}}
    members = {"net": net, "transport": {"Tcp": ports}}
    it = expected.Packet(bytes.fromhex(frames.MIXED[0]), "", members, kinds, check="good", talk=talk)
    it.number, it.time = 1, expected.BEGIN
    rows = [
        (["show", "--width", "12"], ["    1   0.00", CUT_OFF]),
        (["summary"], [*expected.summary([it], 0), CUT_OFF]),
    ]
    return Worked("cut_off", 1, frames.MIXED[:2], rows, end=24 + 16 + 54 + 2)


# What is passed over stands in the report, and on standard error.
PASSED_OVER = "passed over: 0 of other links, 1 too long, 0 without a frame"
NUMBERS = [f"{at + 1:5}" for at in range(len(frames.TALKERS))]
# After the file header, and records of 20 bytes.
TOO_LONG = f"packet 14, byte {24 + 13 * 36}: a packet of 100000 bytes is too long for a line"

CAPTURES = (
    # What is passed over is an IPv4 packet of 100,000 bytes.
    Worked(
        "talkers",
        101,
        [*frames.TALKERS, "45" + 99_999 * "00"],
        [
            (["summary", "--skip"], [*TALKERS.splitlines(), PASSED_OVER]),
            (["show", "--width", "5", "--skip"], [*NUMBERS, PASSED_OVER]),
            (["show", "--width", "5"], [*NUMBERS, TOO_LONG]),
        ],
    ),
    Worked(
        "open_messages",
        1,
        frames.MIXED,
        [
            (["summary", "--only", "arp"], OF_ARP.splitlines()),
            (["summary", "--only", "gre"], OF_GRE.splitlines()),
        ],
    ),
    cut_off(),
)
