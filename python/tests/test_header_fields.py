"""What is read beyond the fields of a packet: c/tests/header_fields.txt says how its lines read."""

import dataclasses
import pickle
import unittest
from ipaddress import IPv4Address, IPv6Address
from pathlib import Path

import etherparse_proved as ep

TOP = Path(__file__).resolve().parents[2]
FAULTS = {"too few bytes": 1, "wrong length": 2, "unknown kind": 3}
KINDS = {ep.NoOperation: 1, ep.MaximumSegmentSize: 2, ep.WindowScale: 3, ep.SackPermitted: 4, ep.Sack: 5, ep.Timestamps: 8}
# The layer and the number of each extension header.
HEADERS = {
    ep.HopByHopOptions: (14, 0),
    ep.DestinationOptions: (15, 60),
    ep.Routing: (16, 43),
    ep.Fragment: (17, 44),
    ep.Authentication: (10, 51),
}
ICMP = {
    ep.UnknownIcmp: 1,
    ep.EchoRequest: 2,
    ep.EchoReply: 3,
    ep.DestinationUnreachable: 4,
    ep.GatewayRedirect: 5,
    ep.TimeExceeded: 6,
    ep.ParameterProblem: 7,
    ep.TimestampRequest: 8,
    ep.TimestampReply: 9,
    ep.PacketTooBig: 10,
}
# The type of each message of neighbor discovery, and where its options start.
NDP = {
    ep.RouterSolicitation: (133, 8),
    ep.RouterAdvertisement: (134, 16),
    ep.NeighborSolicitation: (135, 24),
    ep.NeighborAdvertisement: (136, 24),
    ep.NeighborRedirect: (137, 40),
}
# The kind and the type of each option of neighbor discovery, and how many bytes come before those that it carries.
NDP_OPTIONS = {
    ep.UnknownNdpOption: (1, 0, 2),
    ep.SourceLinkLayerAddress: (2, 1, 2),
    ep.TargetLinkLayerAddress: (3, 2, 2),
    ep.PrefixInformation: (4, 3, 32),
    ep.RedirectedHeader: (5, 4, 8),
    ep.LinkMtu: (6, 5, 8),
    ep.RecursiveDnsServer: (7, 25, 8),
    ep.DnsSearchList: (8, 31, 8),
}
NDP_FAULTS = {"too few bytes": 1, "length 0": 2}
# The kind of each message of a group.
IGMP = {
    ep.IgmpQuery: 1,
    ep.IgmpQueryV3: 2,
    ep.IgmpReportV1: 3,
    ep.IgmpReportV2: 4,
    ep.IgmpLeave: 5,
    ep.IgmpReportV3: 6,
    ep.ShortGroupMessage: 7,
}
MLD = {
    ep.MldQuery: 1,
    ep.MldQueryV2: 2,
    ep.MldReport: 3,
    ep.MldDone: 5,
    ep.MldReportV2: 6,
    ep.ShortGroupMessage: 7,
}
# The fields of which the table has other names.
NAMES = {
    "size": "maximum_segment_size",
    "shift": "window_scale",
    "value": "timestamp",
    "reply": "echoed_timestamp",
    "length": "stated_len",
    "offset": "fragment_offset",
    "originate": "originate_timestamp",
    "receive": "receive_timestamp",
    "transmit": "transmit_timestamp",
    "max_response_time": "max_response",
    "max_response_delay": "max_response",
    "max_response_code": "max_response",
}
# What options of neighbor discovery carry, of which the table has the part.
CARRIED = ("address", "packet", "addresses", "names", "data")
LEFT_OUT = ("reason", "payload", "check_value", "code", "icmp_type", "rest", "blocks", "sources")


def line(what, value, **fields):
    """A line with these fields and those of a value."""
    for field in dataclasses.fields(value):
        if field.name not in LEFT_OUT:
            fields[NAMES.get(field.name, field.name)] = getattr(value, field.name)
    return words(what, **fields)


def words(what, **fields):
    """A line with these fields, without those that are 0: its words after the first in any order."""
    texts = {
        name: number.packed.hex() if hasattr(number, "packed") else number if type(number) is str else str(int(number))
        for name, number in fields.items()
    }
    if "group" in texts:
        texts["group"] = texts["group"].ljust(32, "0") if int(texts["group"], 16) else "0"
    return [what, *sorted(f"{name}={text}" for name, text in texts.items() if text != "0")]


def option_line(option):
    if isinstance(option, ep.UnreadableOption):
        return line("tcp_option", option, fault=FAULTS[option.reason])
    blocks = {}
    if isinstance(option, ep.Sack):
        blocks["block_count"] = len(option.blocks)
        for index, (left, right) in enumerate(option.blocks):
            blocks.update({f"blocks.{index}.left_edge": left, f"blocks.{index}.right_edge": right})
    return line("tcp_option", option, kind=KINDS[type(option)], **blocks)


def extension_lines(start, extensions):
    for extension in extensions:
        layer, number = HEADERS[type(extension)]
        parts = {"header": f"{start}+8"}
        size = 8
        if not isinstance(extension, ep.Fragment):
            before = 12 if isinstance(extension, ep.Authentication) else 2
            payload = extension.check_value if before == 12 else extension.payload
            size = before + len(payload)
            parts = {"header": f"{start}+{size}", "payload": f"{start + before}+{size - before}"}
        yield line("extension", extension, layer=layer, number=number, **parts)
        start += size


def carried_by(option):
    """The bytes that an option of neighbor discovery carries."""
    if isinstance(option, ep.RecursiveDnsServer):
        return b"".join(address.packed for address in option.addresses)
    return next(value for name, value in vars(option).items() if name in CARRIED)


def ndp_option_lines(first, options):
    """Of options of which the first is at this offset of its message."""
    start = first
    for option in options:
        if isinstance(option, ep.UnreadableNdpOption):
            fields = {"kind": 9, "fault": NDP_FAULTS[option.reason], "needed": option.needed, "there": option.there}
            yield words("ndp_option", option=f"{first + option.offset}+0", **fields)
            continue
        kind, option_type, before = NDP_OPTIONS[type(option)]
        size, parts = before, {}
        if not isinstance(option, (ep.PrefixInformation, ep.LinkMtu)):
            carried = carried_by(option)
            size = before + len(carried)
            parts["carried"] = f"{start + before}+{len(carried)}"
        fields = {name: value for name, value in vars(option).items() if name not in CARRIED}
        option_type = fields.pop("kind", option_type)
        yield words("ndp_option", option=f"{start}+{size}", kind=kind, option_type=option_type, **parts, **fields)
        start += size


def group_lines(what, size, message):
    """Of a message of a group of this length, and of its records."""
    kinds, before, length = (IGMP, 12, 4) if what == "igmp" else (MLD, 28, 16)
    fields = {"kind": kinds[type(message)]}
    if hasattr(message, "sources"):
        fields["sources"] = f"{before}+{length * len(message.sources)}"
    if not hasattr(message, "records"):
        yield line(what, message, **fields)
        return
    left = {"records.left": f"8+{size - 8}", "records.count": message.count, "records.is_ipv6": what == "mld"}
    yield words(what, **fields, **left)
    start = 8
    for record in message.records:
        if isinstance(record, ep.UnreadableRecord):
            yield words("group_record", bytes=f"{8 + record.offset}+0", needed=record.needed, there=record.there, kind=2)
            continue
        sources = start + 4 + length
        data = sources + length * len(record.sources)
        end = data + len(record.auxiliary_data)
        parts = {
            "bytes": f"{start}+{end - start}",
            "sources": f"{sources}+{data - sources}",
            "auxiliary_data": f"{data}+{end - data}",
        }
        yield words("group_record", kind=1, record_type=record.kind, group=record.group, **parts)
        start = end


def lines(packet):
    yield from map(option_line, packet.tcp_options())
    ip = packet.ipv4 or packet.ipv6
    yield from extension_lines(ip.offset("extensions"), packet.extensions())
    icmp, ndp = packet.icmp_message(), packet.ndp_message()
    if icmp:
        yield line("icmp", icmp, kind=ICMP[type(icmp)])
    if ndp:
        icmp_type, options_offset = NDP[type(ndp)]
        yield line("ndp", ndp, icmp_type=icmp_type, options_offset=options_offset)
        yield from ndp_option_lines(options_offset, packet.ndp_options())
    mld, igmp = packet.mld_message(), packet.igmp_message()
    if mld:
        yield from group_lines("mld", len(packet.icmp.header) + len(packet.icmp.payload), mld)
    if igmp:
        yield from group_lines("igmp", len(packet.payload), igmp)


class HeaderFields(unittest.TestCase):
    def rows(self):
        """What each frame of the table is, its bytes, and the words of the lines after it."""
        for row in (TOP / "c/tests/header_fields.txt").read_text().split("\n# "):
            head, *texts = row.splitlines()
            if texts and texts[0].startswith("ethernet "):
                yield head, bytes.fromhex(texts[0].split()[1]), [it.split() for it in texts[1:]]

    def test_table(self):
        count, met = 0, set()
        for head, frame, wanted in self.rows():
            for call in ep.slice_ethernet, ep.slice_ethernet_lax:
                packet = call(frame)
                with self.subTest(head):
                    found = [[first, *sorted(others)] for first, *others in wanted if not others[0].startswith("part=")]
                    self.assertEqual(list(lines(packet)), found)
                    options = [it[1] for it in wanted if it[0] == "ipv4_options"]
                    self.assertEqual([f"part=34+{len(it)}" for it in [packet.ipv4_options()] if it], options)
            messages = [packet.icmp_message(), packet.ndp_message(), packet.mld_message(), packet.igmp_message()]
            records = [record for message in messages for record in getattr(message, "records", ())]
            met.update(map(type, packet.tcp_options() + packet.extensions() + packet.ndp_options() + messages + records))
            count += 1
        self.assertEqual(count, 93)
        kinds = {ep.UnreadableOption, *KINDS, *HEADERS, *ICMP, *NDP, ep.UnreadableNdpOption, *NDP_OPTIONS, *IGMP, *MLD}
        self.assertEqual(met, {type(None), *kinds, ep.GroupRecord, ep.UnreadableRecord})

    def test_values(self):
        frame = next(frame for head, frame, _ in self.rows() if head.startswith("maximum segment size, selective"))
        packet = ep.slice_ethernet(frame)
        options = packet.tcp_options()
        self.assertEqual(options[0], ep.MaximumSegmentSize(1460))
        self.assertEqual(repr(options[2]), "Timestamps(value=168496141, reply=16909060)")
        self.assertEqual(packet.tcp_options(), options)
        self.assertEqual(pickle.loads(pickle.dumps(packet)).tcp_options(), options)
        self.assertEqual(type(options[0]).__module__, "etherparse_proved")
        with self.assertRaises(dataclasses.FrozenInstanceError):
            options[0].size = 1
        made = ep.Packet(**{field.name: getattr(packet, field.name) for field in dataclasses.fields(packet)})
        with self.assertRaisesRegex(ValueError, "made by hand"):
            made.tcp_options()

    def packet_of(self, start):
        """The packet of the row whose head begins so."""
        return ep.slice_ethernet(next(frame for head, frame, _ in self.rows() if head.startswith(start)))

    def test_values_of_ndp_options(self):
        options = self.packet_of("router advertisement with the options").ndp_options()
        prefix = ep.PrefixInformation(64, True, True, 2592000, 604800, IPv6Address("2001:db8::"))
        servers = IPv6Address("2001:db8::53"), IPv6Address("2001:db8::54")
        self.assertEqual(
            options,
            [
                ep.SourceLinkLayerAddress(bytes.fromhex("020000000001")),
                ep.LinkMtu(1500),
                prefix,
                ep.RecursiveDnsServer(3600, servers),
                ep.DnsSearchList(3600, b"\x07example\x03com\0\0\0\0"),
                ep.UnknownNdpOption(24, bytes.fromhex("300800000e1020010db800000000")),
            ],
        )
        self.assertEqual(pickle.loads(pickle.dumps(options)), options)
        packet = self.packet_of("redirect with the target's")
        address, redirected = packet.ndp_options()
        self.assertEqual(address, ep.TargetLinkLayerAddress(bytes.fromhex("020000000009")))
        self.assertEqual(redirected, ep.RedirectedHeader(packet.icmp.payload[48:]))
        last = self.packet_of("a prefix of which half is missing").ndp_options()[-1]
        self.assertEqual(last, ep.UnreadableNdpOption(0, "too few bytes", 32, 16))
        self.assertEqual(self.packet_of("an option of length 0").ndp_options()[-1], ep.UnreadableNdpOption(8, "length 0"))
        self.assertEqual(self.packet_of("no options").ndp_options(), [])

    def test_values_of_groups(self):
        report = self.packet_of("IGMP: report of version 3 with a record of each").igmp_message()
        sources = IPv4Address("10.0.0.1"), IPv4Address("10.0.0.2")
        self.assertEqual(report.records[2], ep.GroupRecord(3, IPv4Address("239.1.2.3"), sources, b""))
        self.assertEqual(report.records[4].auxiliary_data.hex(), "deadbeef01020304")
        self.assertEqual(pickle.loads(pickle.dumps(report)), report)
        self.assertEqual(type(report).__module__, "etherparse_proved")
        query = self.packet_of("IGMP: query of version 3 for two").igmp_message()
        self.assertEqual(query, ep.IgmpQueryV3(138, IPv4Address("239.1.2.3"), sources))
        sources = IPv6Address("2001:db8::1"), IPv6Address("2001:db8::2")
        report = self.packet_of("report of version 2 with a record of each").mld_message()
        self.assertEqual(report.records[2], ep.GroupRecord(3, IPv6Address("ff05::1:3"), sources, b""))
        self.assertEqual(report.records[4].auxiliary_data.hex(), "deadbeef")
        query = self.packet_of("query of version 2 for two").mld_message()
        self.assertEqual(query, ep.MldQueryV2(33768, IPv6Address("ff05::1:3"), sources))
        report = self.packet_of("report of version 2 that names two more").mld_message()
        self.assertEqual((report.count, len(report.records), report.records[1]), (3, 2, ep.UnreadableRecord(20, 20, 0)))
        packet = self.packet_of("IGMP: report of version 1")
        self.assertEqual((packet.mld_message(), packet.ndp_options()), (None, []))
        self.assertIsNone(self.packet_of("report of version 1").igmp_message())

    def test_codes(self):
        header = "0200000000020200000000010800450000200007000040010000" + "0a0000010a000002"
        redirect = ep.slice_ethernet(bytes.fromhex(header + "050100000a0000fe00000000")).icmp_message()
        self.assertEqual((redirect.code, str(redirect.gateway)), (1, "10.0.0.254"))
        unknown = ep.slice_ethernet(bytes.fromhex(header + "0f0200000102030400000000")).icmp_message()
        self.assertEqual(unknown, ep.UnknownIcmp(15, 2, bytes([1, 2, 3, 4])))
