"""Run at the top of the repository: python3 -m unittest discover -s python -t python"""

import dataclasses
import ipaddress
import unittest
from pathlib import Path

import etherparse_proved as ep

TOP = Path(__file__).resolve().parents[2]
CALLS = {
    "ethernet": (ep.slice_ethernet, ep.verdict_ethernet),
    "linux_sll": (ep.slice_linux_sll, ep.verdict_linux_sll),
    "ip": (ep.slice_ip, ep.verdict_ip),
}
LAX_CALLS = {"ethernet": ep.slice_ethernet_lax, "linux_sll": ep.slice_linux_sll_lax, "ip": ep.slice_ip_lax}
UDP = bytes.fromhex(
    "02000000000202000000000108004500002400070000401166c00a0000010a000002000100020010dbb40102030405060708"
)


def rows():
    for line in (TOP / "c/tests/packets.txt").read_text().splitlines():
        if not line.startswith("#"):
            call, digits, *fields = line.split()
            frame = bytes.fromhex(digits) if digits != "-" else b""
            yield call, frame, dict(field.split("=") for field in fields)


def cut_rows():
    """Of each row of c/tests/cut_packets.txt the call, the first bytes, and the expected fields."""
    for line in (TOP / "c/tests/cut_packets.txt").read_text().splitlines():
        first, *words = line.split()
        if first in LAX_CALLS:
            call, frame = first, bytes.fromhex(words[0])
        elif first != "#":
            start, _, end = first.partition("-")
            for n in range(int(start), int(end or start) + 1):
                fields = (word.split("=") for word in words)
                yield call, frame[:n], {path: expected(value, n) for path, value in fields}


def expected(value, n):
    """A value of the table for the first n bytes."""
    if value.startswith("n"):
        return str(n - int(value[2:] or 0))
    offset, plus, length = value.partition("+")
    return offset + plus + expected(length, n) if plus else value


class Packets(unittest.TestCase):
    def compare(self, packet, frame, wanted):
        """The layers' fields of a table, by way of the package's own names."""
        for path, text in wanted.items():
            if "." not in path or path.startswith(("refusal", "stop", "link.kind")):
                continue
            value, layer = self.field(packet, frame, path)
            if layer is None:
                self.assertIn(text, ("0", "0+0"), path)
            elif "+" in text:
                offset, length = map(int, text.split("+"))
                self.assertEqual(value, frame[offset : offset + length], path)
                self.assertEqual(layer.offset(path.rpartition(".")[2]), offset, path)
            else:
                self.assertEqual(value.hex() if isinstance(value, bytes) else str(int(value)), text, path)

    def compare_refusal(self, error, prefix, wanted):
        self.assertEqual(error.reason, wanted[f"{prefix}.kind"].lower())
        for name in ("layer", "needed", "there", "place", "source", "value"):
            if f"{prefix}.{name}" in wanted:
                self.assertEqual(getattr(error, name), int(wanted[f"{prefix}.{name}"]), name)

    def field(self, packet, frame, path):
        """The field of this path as the table writes it, by way of the package's own names."""
        first, _, rest = path.partition(".")
        layer = packet
        if rest and first == "tags":
            index, _, rest = rest.partition(".")
            layer = packet.tags[int(index)] if int(index) < len(packet.tags) else None
        elif rest:
            layer = getattr(packet, first)
        if not rest:
            raise unittest.SkipTest(path)
        value = getattr(layer, rest) if layer else None
        if isinstance(value, (ipaddress.IPv4Address, ipaddress.IPv6Address)):
            value = value.packed
        return value, layer

    def test_table(self):
        for call, frame, wanted in rows():
            slice_call, verdict_call = CALLS[call]
            with self.subTest(call=call, frame=frame.hex()):
                verdict = verdict_call(frame)
                self.assertEqual(int(wanted.get("verdict", 3)), 3 if verdict is None else verdict.value)
                if wanted.get("refusal.kind", "NONE") != "NONE":
                    with self.assertRaises(ep.Refused) as refused:
                        slice_call(frame)
                    self.compare_refusal(refused.exception, "refusal", wanted)
                else:
                    self.compare(slice_call(frame), frame, wanted)

    def test_cut_packets(self):
        stopped = 0
        for call, frame, wanted in cut_rows():
            with self.subTest(call=call, frame=frame.hex()):
                if wanted.get("refusal.kind", "NONE") != "NONE":
                    with self.assertRaises(ep.Refused) as refused:
                        LAX_CALLS[call](frame)
                    self.compare_refusal(refused.exception, "refusal", wanted)
                    continue
                packet = LAX_CALLS[call](frame)
                self.compare(packet, frame, wanted)
                self.assertEqual(packet.incomplete, wanted["incomplete"] == "1")
                if wanted["stop.kind"] == "NONE":
                    self.assertEqual((packet.stop, packet.stop_layer), (None, 0))
                else:
                    self.compare_refusal(packet.stop, "stop", wanted)
                    self.assertEqual(packet.stop_layer, int(wanted["stop_layer"]))
                    stopped += 1
        self.assertGreater(stopped, 250)

    def test_whole_packets_are_there(self):
        for call, frame, wanted in rows():
            if wanted.get("refusal.kind", "NONE") == "NONE":
                with self.subTest(call=call, frame=frame.hex()):
                    packet, found = CALLS[call][0](frame), LAX_CALLS[call](frame)
                    for field in dataclasses.fields(packet):
                        self.assertEqual(getattr(found, field.name), getattr(packet, field.name))
                    self.assertEqual((found.stop, found.stop_layer, found.incomplete), (None, 0, False))

    def test_layers(self):
        packet = ep.slice_ethernet(UDP)
        self.assertEqual(packet.ipv4.source, ipaddress.ip_address("10.0.0.1"))
        self.assertEqual(packet.ipv4.destination, ipaddress.ip_address("10.0.0.2"))
        self.assertEqual((packet.udp.source_port, packet.udp.destination_port), (1, 2))
        self.assertEqual(packet.payload, bytes(range(1, 9)))
        self.assertIsNone(packet.tcp)
        self.assertIsNone(packet.ipv6)
        self.assertEqual(packet.tags, ())
        self.assertEqual(packet.link.source, bytes.fromhex("020000000001"))
        with self.assertRaises(AttributeError):
            packet.udp.no_such_field

    def test_a_frame_with_a_zero_byte_is_taken_whole(self):
        self.assertEqual(ep.slice_ethernet(bytes(12) + b"\x88\xcc" + bytes(3)).payload, bytes(3))

    def test_refusal_text(self):
        with self.assertRaisesRegex(ep.Refused, "^ethernet2 header at byte 0 needs 14 bytes, and 13 are there$"):
            ep.slice_ethernet(bytes(13))
        # Destination options, and after them hop-by-hop options (RFC 8200, section 4.1).
        packet = bytes.fromhex("60000000 0010 3c 40") + bytes(32) + bytes([0] + [0] * 7) + bytes([59] + [0] * 7)
        with self.assertRaisesRegex(ep.Refused, "^hop-by-hop options not at the start$"):
            ep.slice_ip(packet)

    def test_checksum(self):
        # RFC 1071, section 3
        words = bytes.fromhex("0001f203f4f5f6f7")
        self.assertEqual(ep.checksum(words), 0x220D)
        self.assertTrue(ep.checksum_is_right(words + b"\x22\x0d"))
        self.assertFalse(ep.checksum_is_right(words))


def plans():
    for line in (TOP / "c/tests/plans.txt").read_text().splitlines():
        if not line.startswith("#"):
            digits, wanted, *fields = line.split()
            yield bytes.fromhex(digits.strip("-")), wanted, dict(field.split("=") for field in fields)


class Plans(unittest.TestCase):
    def link(self, fields, number):
        """The link header, or False where no argument can say it."""
        kind, tags = number("link"), number("tag_count")
        if kind > 2 or kind != 1 and tags:
            return False
        if kind == 1:
            tags_of = ("outer", "inner", "third")[:tags]
            names = "vlan_id", "priority", "drop_eligible"
            chosen = [ep.PlannedTag(*(number(f"{which}_{name}") for name in names)) for which in tags_of]
            chosen = [it if it.priority or it.drop_eligible else it.vlan_id for it in chosen]
            return ep.PlannedEthernet(bytes.fromhex(fields["source"]), bytes.fromhex(fields["destination"]), chosen)
        if kind == 2:
            address = bytes.fromhex(fields.get("address", "00" * 8))
            return ep.PlannedCapture(number("packet_type"), number("address_len"), address)
        return None

    def transport(self, fields, number):
        kind = number("transport")
        if kind == 6:
            names = ("source_port", "destination_port", "sequence_number", "acknowledgment_number", "window_size")
            flags = ("ns", "fin", "syn", "rst", "psh", "ack", "urg", "ece", "cwr")
            options = bytes.fromhex(fields.get("options", "")).ljust(41, b"\0")[: number("options_len")]
            return ep.PlannedTcp(options=options, **{name: number(name) for name in (*names, "urgent_pointer", *flags)})
        if kind == 17:
            return ep.PlannedUdp(number("source_port"), number("destination_port"))
        if kind and number("icmp_is_raw"):
            rest = bytes.fromhex(fields.get("icmp_bytes", "00" * 4))
            return ep.PlannedIcmp(kind, ep.UnknownIcmp(number("icmp_type"), number("icmp_code"), rest))
        if kind:
            return ep.PlannedEcho(kind, number("echo_id"), number("echo_sequence"), bool(number("is_reply")))
        return number("payload_number")

    def extensions(self, fields, number):
        names = "hop_by_hop_options", "destination_options", "routing", "final_destination_options"
        headers = {it: bytes.fromhex(fields[f"extensions.{it}"]) for it in names if f"extensions.{it}" in fields}
        if number("extensions.has_fragment_header"):
            numbers = (number(f"extensions.{name}") for name in ("identification", "fragment_offset", "more_fragments"))
            headers["fragment"] = ep.PlannedFragment(*numbers)
        if number("extensions.has_authentication"):
            value = bytes.fromhex(fields.get("extensions.integrity_check_value", ""))
            numbers = number("extensions.spi"), number("extensions.sequence_number")
            headers["authentication"] = ep.PlannedAuthentication(*numbers, value)
        return ep.PlannedExtensions(**headers) if headers else None

    def arguments(self, fields):
        """Those of `build`, or None where it can't say these fields."""

        def number(name):
            return int(fields.get(name, 0))

        version, link = number("ip_version"), self.link(fields, number)
        parts = any(value.startswith("@") for value in fields.values())
        if version not in (4, 6) or link is False or parts or number("transport") not in (0, 1, 6, 17, 58):
            return None
        names = ("dscp", "ecn", "identification", "more_fragments", "fragment_offset", "traffic_class", "flow_label", "hops")
        numbers = {name: number(name) for name in names}
        numbers["dont_fragment"] = not number("may_fragment")
        options = bytes.fromhex(fields.get("ipv4_options", "")).ljust(48, b"\0")[: number("ipv4_options_len")]
        ends = (ipaddress.ip_address(bytes.fromhex(fields[f"ipv{version}_{end}"])) for end in ("source", "destination"))
        source, destination = ends
        others = dict(transport=self.transport(fields, number), link=link, extensions=self.extensions(fields, number))
        return dict(source=source, destination=destination, ipv4_options=options, **numbers, **others)

    def arp(self, fields):
        """Those of `build_arp`, or None."""

        def number(name):
            return int(fields.get(name, 0))

        link = self.link(fields, number)
        if link is False or any(value.startswith("@") for value in fields.values()):
            return None
        names = "sender_hardware", "sender_protocol", "target_hardware", "target_protocol"
        addresses = (bytes.fromhex(fields.get(f"arp.{name}", "")) for name in names)
        types = number("arp.hardware_type"), number("arp.protocol_type")
        return ep.PlannedArp(number("arp.operation"), *addresses, *types), link

    def test_table(self):
        names = "link packet_type tag_count outer_vlan_id outer_priority inner_vlan_id inner_priority ip_version dscp ecn"
        names += " fragment_offset ipv4_options_len flow_label hop_by_hop_options destination_options routing fragment_header"
        names += " authentication final_destination_options transport options_len hardware_addresses protocol_addresses payload"
        seen = 0
        for payload, wanted, fields in plans():
            if any(name.startswith("arp.") for name in fields):
                given = self.arp(fields)
                call = given and (lambda: ep.build_arp(given[0], link=given[1]))
            else:
                given = self.arguments(fields)
                call = given and (lambda: ep.build(payload, **given))
            if not call:
                continue
            seen += 1
            with self.subTest(fields=fields):
                if wanted.startswith("refused="):
                    with self.assertRaises(ep.BuildRefused) as refused:
                        call()
                    self.assertEqual(refused.exception.field, names.split()[int(wanted[8:]) - 1])
                else:
                    self.assertEqual(call().hex(), wanted)
        self.assertGreater(seen, 85)

    def test_messages(self):
        """Kinds of ICMP messages, by RFC 792 and RFC 4443."""
        ends = {1: dict(source="10.0.0.1", destination="10.0.0.2"), 58: dict(source="2001:db8::1", destination="2001:db8::2")}
        for number, message, header in (
            (1, ep.EchoRequest(258, 772), "080001020304"),
            (1, ep.EchoReply(258, 772), "000001020304"),
            (1, ep.DestinationUnreachable(4, 1500), "0304000005dc"),
            (1, ep.GatewayRedirect(1, ipaddress.IPv4Address("10.9.8.7")), "05010a090807"),
            (1, ep.TimeExceeded(1), "0b0100000000"),
            (1, ep.ParameterProblem(0, 255), "0c00ff000000"),
            (1, ep.TimestampRequest(1, 2, 3, 4, 5), "0d0000010002000000030000000400000005"),
            (1, ep.TimestampReply(1, 2, 3, 4, 5), "0e0000010002000000030000000400000005"),
            (1, ep.UnknownIcmp(200, 7, b"abcd"), "c80761626364"),
            (58, ep.EchoRequest(258, 772), "800001020304"),
            (58, ep.EchoReply(258, 772), "810001020304"),
            (58, ep.DestinationUnreachable(4, 0), "010400000000"),
            (58, ep.PacketTooBig(1280), "020000000500"),
            (58, ep.TimeExceeded(1), "030100000000"),
            (58, ep.ParameterProblem(2, 0x01020304), "040201020304"),
            (58, ep.UnknownIcmp(135, 0, bytes(4)), "870000000000"),
        ):
            with self.subTest(message, number=number):
                packet = ep.build(b"!", transport=ep.PlannedIcmp(number, message), **ends[number])
                written = packet[20 if number == 1 else 40 :]
                self.assertEqual((written[:2] + written[4:]).hex(), header + b"!".hex())
                # A timestamp message has 20 bytes (RFC 792), and no byte more that could be judged.
                whole = ep.build(b"", transport=ep.PlannedIcmp(number, message), **ends[number])
                self.assertEqual(ep.verdict_ip(whole), ep.Verdict.GOOD)
        for number, message in (
            (1, ep.PacketTooBig(1)),
            (58, ep.TimestampRequest(1, 2, 3, 4, 5)),
            (58, ep.GatewayRedirect(0, ipaddress.IPv4Address(0))),
            (1, "echo"),
        ):
            with self.subTest(message, number=number), self.assertRaises(TypeError):
                ep.PlannedIcmp(number, message)
        for number, message in (
            (1, ep.ParameterProblem(0, 256)),
            (58, ep.DestinationUnreachable(4, 1)),
            (1, ep.EchoReply(65536, 0)),
            (1, ep.UnknownIcmp(1, 2, bytes(5))),
            (17, ep.EchoReply(1, 1)),
        ):
            with self.subTest(message, number=number), self.assertRaises(ValueError):
                ep.PlannedIcmp(number, message)

    def test_tcp_options(self):
        """Options by RFC 9293, section 3.2, RFC 7323 and RFC 2018."""
        options = (ep.MaximumSegmentSize(1460), ep.SackPermitted(), ep.Timestamps(0x01020304, 0x05060708), ep.NoOperation())
        tcp = ep.PlannedTcp(1, 2, options=[*options, ep.WindowScale(7)])
        self.assertEqual(tcp.options.hex(), "020405b40402080a010203040506070801030307")
        self.assertEqual(ep.PlannedTcp(1, 2, options=(ep.Sack(((1, 2), (3, 4))),)).options.hex(), "0512" + "00000001000000020000000300000004")
        packet = ep.slice_ip(ep.build(b"", source="::1", destination="::2", transport=tcp))
        self.assertEqual(packet.tcp_options(), [*options, ep.WindowScale(7)])
        for wrong in "text", 5, None, [1, 2], [ep.UnreadableOption(1, "unknown kind")]:
            with self.assertRaises(TypeError):
                ep.PlannedTcp(1, 2, options=wrong)
        for wrong in ep.Sack(()), ep.Sack(((1, 2),) * 5), ep.Sack(((1, 1 << 32),)), ep.MaximumSegmentSize(65536), ep.WindowScale(-1):
            with self.assertRaises(ValueError):
                ep.PlannedTcp(1, 2, options=[wrong])

    def test_fields_of_the_other_version(self):
        over_ipv4 = dict(source="10.0.0.1", destination="10.0.0.2", transport=ep.PlannedUdp(1, 2))
        over_ipv6 = dict(source="::1", destination="::2", transport=ep.PlannedUdp(1, 2))
        for name, value in (
            ("dscp", 1), ("ecn", 1), ("identification", 1), ("dont_fragment", False), ("more_fragments", True),
            ("fragment_offset", 1), ("ipv4_options", bytes(4)),
        ):  # fmt: skip
            with self.assertRaisesRegex(ValueError, f"^{name} isn't of IPv6, as the addresses are$"):
                ep.build(b"", **over_ipv6, **{name: value})
        for name in "traffic_class", "flow_label":
            with self.assertRaisesRegex(ValueError, f"^{name} isn't of IPv4, as the addresses are$"):
                ep.build(b"", **over_ipv4, **{name: 1})

    def test_arp(self):
        """A request (RFC 826), of addresses that are of `ipaddress`."""
        ends = ipaddress.IPv4Address("10.0.0.1"), ipaddress.IPv4Address("10.0.0.2")
        arp = ep.PlannedArp(1, bytes([1, 2, 3, 4, 5, 6]), ends[0], bytes(6), ends[1])
        packet = ep.build_arp(arp, link=ep.PlannedEthernet(arp.sender_hardware, b"\xff" * 6))
        wanted = "ffffffffffff010203040506080600010800060400010102030405060a0000010000000000000a000002"
        self.assertEqual(packet.hex(), wanted)
        self.assertEqual(ep.slice_ethernet(packet).arp.target_protocol, ends[1].packed)
        for wrong in dict(operation=65536), dict(hardware_type=-1), dict(protocol_type=1 << 16):
            with self.assertRaises(ValueError):
                ep.build_arp(dataclasses.replace(arp, **wrong), link=ep.PlannedEthernet(bytes(6), bytes(6)))

    def test_arguments(self):
        ends = dict(source="10.0.0.1", destination="10.0.0.2", transport=ep.PlannedUdp(1, 2))
        self.assertEqual(len(ep.build(bytes(65507), **ends)), 65535)
        with self.assertRaisesRegex(ep.BuildRefused, "no packet has such a field: payload"):
            ep.build(bytes(65508), **ends)
        for wrong in (
            dict(destination="::1"),
            dict(transport=ep.PlannedUdp(65536, 2)),
            dict(transport=256),
            dict(hops=-1),
        ):
            with self.subTest(wrong), self.assertRaises(ValueError):
                ep.build(b"", **{**ends, **wrong})


class Pools(unittest.TestCase):
    def answer(self, add, frame, time, channel):
        """What a frame is answered, in the words of the table."""
        try:
            message = add(frame, time, channel)
        except ep.Refused as refused:
            return ["frame", refused.kind]
        except ep.PartRefused as part:
            return ["part", part.kind, part.offset, part.previous_end, part.end, part.len]
        if message is None:
            return ["none"]
        ends = message.source, message.destination
        return ["message", ends[0].version, message.number, *(end.packed.hex() for end in ends), message.data.hex()]

    def test_table(self):
        pool = ep.Pool()
        for line in (TOP / "c/tests/pools.txt").read_text().splitlines():
            call, *words = line.split()
            with self.subTest(line):
                if call == "pool":
                    pool.close()
                    pool = ep.Pool()
                elif call.startswith("add"):
                    time, channel, digits, *wanted = words
                    found = self.answer(getattr(pool, call), bytes.fromhex(digits.strip("-")), int(time), int(channel))
                    self.assertEqual([str(word) for word in found], wanted)
                elif call == "forget":
                    pool.forget_before(int(words[0]))
                elif call == "open":
                    self.assertEqual(len(pool), int(words[0]))

    def test_states(self):
        with ep.Pool() as pool:
            for channel in -1, 1 << 32:
                with self.assertRaisesRegex(ValueError, f"^channel is {channel}, and has to be from 0 to 4294967295$"):
                    pool.add(UDP, 1, channel)
            with self.assertRaisesRegex(ep.PartRefused, "a part of 7 bytes at offset 0, and no multiple of 8"):
                pool.add(bytes.fromhex("00" * 12 + "0800" + "4500001b00012000401166ca0a0000010a000002" + "00" * 7), 1)
        for call in (lambda: pool.add(UDP, 6), lambda: pool.forget_before(6)):
            with self.assertRaisesRegex(ValueError, "the pool is closed"):
                call()
        self.assertEqual(len(pool), 0)
        pool.close()


class Answers(unittest.TestCase):
    def test_rows(self):
        texts = sorted((TOP / "crates/netlines_rows/data").glob("*.in"))
        texts = [text for text in texts if text.stem != "wrong_on_purpose"]
        self.assertGreater(len(texts), 50)
        for text in texts:
            with self.subTest(text.name):
                self.assertEqual(ep.answers(text.read_bytes()), text.with_suffix(".out").read_bytes())

    def test_rows_in_pieces(self):
        for text in sorted((TOP / "crates/netlines_rows/data").glob("*.in")):
            if text.stem == "wrong_on_purpose":
                continue
            whole, wanted = text.read_bytes(), text.with_suffix(".out").read_bytes()
            for size in 1, 7, 65536:
                with self.subTest(text.name, size=size), ep.Session() as session:
                    found = [session.feed(whole[at : at + size]) for at in range(0, len(whole), size)]
                    self.assertEqual(b"".join(found) + session.finish(), wanted)

    def test_no_lines(self):
        self.assertEqual(ep.answers(b""), b"")
        self.assertEqual(ep.Session().finish(), b"")

    def test_states(self):
        session = ep.Session()
        self.assertEqual(session.feed(b"?"), b"")
        self.assertEqual(session.finish(), b"bad line\n")
        self.assertEqual(session.finish(), b"")
        with self.assertRaises(ValueError):
            session.feed(b"\n")
        session.close()
        with self.assertRaises(ValueError):
            session.finish()
        session.close()


if __name__ == "__main__":
    unittest.main()
