"""What Python expects of values, arguments and handles: run as the tests beside this."""

import array
import copy
import dataclasses
import gc
import inspect
import ipaddress
import pickle
import sys
import typing
import unittest
import warnings
from pathlib import Path

import etherparse_proved as ep

TOP = Path(__file__).resolve().parents[2]
# UDP from 10.0.0.1:1 to 10.0.0.2:2 over Ethernet, after a VLAN tag of identifier 5.
TAGGED = bytes.fromhex(
    "0200000000020200000000018100000508004500002400070000401166c00a0000010a000002000100020010dbb40102030405060708"
)
ADDRESSES = (ipaddress.IPv4Address, ipaddress.IPv6Address)
LAYERS = (ep.Link, ep.Tag, ep.Arp, ep.Ipv4, ep.Ipv6, ep.Udp, ep.Tcp, ep.Icmp)
# Two fragments of an IPv4 datagram of 16 bytes of protocol 253, at times that a test chooses.
PARTS = [
    bytes.fromhex("020000000002020000000001080045000" + header + "0a0000010a000002" + data)
    for header, data in (
        ("01c00012000" + "40fd0000", "0001020304050607"),
        ("01c00010001" + "40fd0000", "08090a0b0c0d0e0f"),
    )
]


def frames():
    for line in (TOP / "c/tests/packets.txt").read_text().splitlines():
        if not line.startswith("#") and "refusal.kind" not in line:
            call, digits, *_ = line.split()
            yield getattr(ep, f"slice_{call}"), bytes.fromhex(digits.strip("-"))


class Values(unittest.TestCase):
    def layers(self):
        for call, frame in frames():
            packet = call(frame)
            yield packet
            for field in dataclasses.fields(packet):
                value = getattr(packet, field.name)
                yield from value if field.name == "tags" else [value] if isinstance(value, LAYERS) else []

    def test_fields_are_of_their_types(self):
        met = set()
        for layer in self.layers():
            for name, kind in typing.get_type_hints(type(layer)).items():
                if kind is typing.ClassVar or typing.get_origin(kind) is typing.ClassVar:
                    continue
                value = getattr(layer, name)
                wanted = tuple(typing.get_origin(it) or it for it in typing.get_args(kind)) or (kind,)
                wanted = (tuple,) if typing.get_origin(kind) is tuple else wanted
                exact = next((it for it in ADDRESSES if isinstance(value, it)), type(value))
                self.assertIn(exact, wanted, f"{type(layer).__name__}.{name}")
            met.add(type(layer))
        self.assertEqual(met, {ep.Packet, *LAYERS})

    def test_addresses(self):
        v6 = bytes(12) + bytes.fromhex("86dd6000000000083bff") + bytes(15) + b"\1" + bytes(15) + b"\2" + b"\x3b\0" + bytes(6)
        for packet, text, other in (
            (ep.slice_ethernet(TAGGED).ipv4, "10.0.0.1", "10.0.0.2"),
            (ep.slice_ethernet(v6).ipv6, "::1", "::2"),
        ):
            plain = ipaddress.ip_address(text)
            for address in (packet.source, copy.copy(packet.source), pickle.loads(pickle.dumps(packet.source))):
                self.assertEqual(str(address), text)
                self.assertEqual(f"{address}", text)
                self.assertEqual(repr(address), repr(plain))
                self.assertIsInstance(address, type(plain))
                self.assertEqual(address, plain)
                self.assertEqual(plain, address)
                self.assertEqual({address: 1}[plain], 1)
                self.assertLess(address, ipaddress.ip_address(other))
                self.assertEqual(address + 1, packet.destination)
                self.assertIn(address, ipaddress.ip_network(f"{text}/{plain.max_prefixlen}"))

    def test_equal_packets(self):
        packet, same = ep.slice_ethernet(TAGGED), ep.slice_ethernet(TAGGED)
        other = ep.slice_ethernet(TAGGED[:-1] + b"\0")
        self.assertEqual(packet, same)
        self.assertEqual(hash(packet), hash(same))
        self.assertNotEqual(packet, other)
        self.assertEqual(packet.ipv4.source, other.ipv4.source)
        self.assertEqual(packet.link, other.link)
        self.assertNotEqual(packet.udp, other.udp)
        self.assertNotEqual(packet.udp, packet.ipv4)
        self.assertIs(packet.udp, packet.udp)
        self.assertEqual(len({packet, same, other}), 2)
        self.assertIsNone(packet.tcp)

    def test_equal_lax_packets(self):
        cut, same, other = (ep.slice_ethernet_lax(TAGGED[:n]) for n in (45, 45, 44))
        self.assertEqual((cut, cut.stop, hash(cut), hash(cut.stop)), (same, same.stop, hash(same), hash(same.stop)))
        self.assertNotEqual(cut.stop, other.stop)
        self.assertNotEqual(cut.stop, "udp header")
        self.assertEqual(str(cut.stop), "udp header at byte 38 needs 8 bytes, and 7 are there")
        whole = ep.slice_ethernet_lax(TAGGED)
        self.assertEqual((whole.stop, whole.stop_layer, whole.incomplete), (None, 0, False))
        self.assertNotEqual(whole, ep.slice_ethernet(TAGGED))
        for copied in copy.copy(cut), copy.deepcopy(cut), pickle.loads(pickle.dumps(cut)):
            self.assertEqual((copied, copied.stop), (cut, cut.stop))
        self.assertEqual(dataclasses.asdict(cut)["stop"], cut.stop)

    def test_text(self):
        packet = ep.slice_ethernet(TAGGED)
        self.assertEqual(
            repr(packet.udp),
            "Udp(header=b'\\x00\\x01\\x00\\x02\\x00\\x10\\xdb\\xb4', payload=b'\\x01\\x02\\x03\\x04\\x05\\x06\\x07\\x08',"
            " source_port=1, destination_port=2, stated_len=16, checksum=56244)",
        )
        self.assertTrue(repr(packet).startswith("Packet(link=Link(kind=1, protocol=33024, "))
        self.assertIn("tags=(Tag(header=", repr(packet))
        self.assertIn("tcp=None", repr(packet))

    def test_made_by_hand(self):
        udp = ep.slice_ethernet(TAGGED).udp
        made = ep.Udp(**{field.name: getattr(udp, field.name) for field in dataclasses.fields(udp)})
        self.assertEqual(made, udp)
        self.assertEqual(dataclasses.replace(udp, source_port=9).source_port, 9)
        self.assertEqual(dataclasses.asdict(udp)["destination_port"], 2)
        with self.assertRaisesRegex(ValueError, "payload is no part of a frame that was sliced"):
            made.offset("payload")
        with self.assertRaisesRegex(ValueError, "source_port is no part"):
            udp.offset("source_port")
        self.assertEqual(udp.offset("payload"), len(TAGGED) - 8)

    def test_names(self):
        packet = ep.slice_ethernet(TAGGED)
        for value in packet, packet.link, packet.tags[0], packet.ipv4, packet.udp:
            names = [field.name for field in dataclasses.fields(value)]
            self.assertLessEqual(set(names), set(dir(value)))
            for name in names[0], "no_such_field":
                with self.subTest(type(value), name=name), self.assertRaises(AttributeError):
                    setattr(value, name, 0)
            with self.assertRaises(AttributeError):
                del value.no_such_field
            with self.assertRaises(AttributeError):
                value.no_such_field
        for handle in ep.Pool(), ep.Session():
            with self.assertRaises(AttributeError):
                handle.no_such_field = 1
        for planned in (
            ep.PlannedUdp(1, 2),
            ep.PlannedTcp(1, 2, options=[ep.WindowScale(1)]),
            ep.PlannedEthernet(bytes(6), bytes(6), [1, ep.PlannedTag(2, 3)]),
            ep.PlannedIcmp(1, ep.EchoReply(1, 2)),
            ep.PlannedExtensions(routing=bytearray(6), fragment=ep.PlannedFragment(1), authentication=ep.PlannedAuthentication(1, 2)),
            ep.PlannedArp(1, bytearray(6), bytes(4), bytes(6), bytes(4)),
        ):
            self.assertEqual(hash(planned), hash(copy.copy(planned)))
            with self.assertRaises(AttributeError):
                planned.source_prt = 1

    def test_copies(self):
        packet = ep.slice_ethernet(TAGGED)
        for copied in copy.copy(packet), copy.deepcopy(packet), pickle.loads(pickle.dumps(packet)):
            self.assertEqual(copied, packet)
            self.assertEqual(copied.udp.offset("payload"), len(TAGGED) - 8)
        errors = []
        for call in (
            lambda: ep.slice_ethernet(bytes(13)),
            lambda: ep.build(b"", source="10.0.0.1", destination="10.0.0.2", transport=ep.PlannedEcho(58, 1, 1)),
            lambda: ep.Pool().add(bytes.fromhex("00" * 12 + "08004500001b00012000401166ca0a0000010a000002" + "00" * 7), 1),
        ):
            with self.assertRaises((ep.Refused, ep.BuildRefused, ep.PartRefused)) as raised:
                call()
            errors.append(raised.exception)
        self.assertEqual([type(it) for it in errors], [ep.Refused, ep.BuildRefused, ep.PartRefused])
        for error in errors:
            copied = pickle.loads(pickle.dumps(error))
            self.assertEqual((type(copied), vars(copied), str(copied)), (type(error), vars(error), str(error)))
        for handle in ep.Pool(), ep.Session():
            for copied in copy.copy, pickle.dumps:
                with self.assertRaisesRegex(TypeError, "can't be copied or pickled"):
                    copied(handle)

    def test_a_later_change_of_a_buffer_is_not_seen(self):
        buffer = bytearray(TAGGED)
        packet = ep.slice_ethernet(buffer)
        buffer[:] = bytes(len(buffer))
        self.assertEqual(packet, ep.slice_ethernet(TAGGED))

    def test_version(self):
        self.assertEqual(ep.__version__, (TOP / "VERSION").read_text().strip())


class Arguments(unittest.TestCase):
    def test_buffers(self):
        packet = ep.slice_ethernet(TAGGED)
        spread = bytes(2 * it for it in range(len(TAGGED) * 2))[:0] + bytes(b for it in TAGGED for b in (it, 0))
        for buffer in (
            bytearray(TAGGED),
            memoryview(TAGGED),
            memoryview(bytearray(TAGGED)),
            memoryview(spread)[::2],
            array.array("B", TAGGED),
            array.array("H", TAGGED),
            memoryview(TAGGED).cast("B", (2, len(TAGGED) // 2)),
        ):
            with self.subTest(buffer):
                self.assertEqual(ep.slice_ethernet(buffer), packet)
                self.assertEqual(ep.verdict_ethernet(buffer), ep.Verdict.GOOD)
                self.assertEqual(ep.checksum(buffer), ep.checksum(TAGGED))
                self.assertIsNone(ep.Pool().add(buffer, 1))
        # RFC 1071, section 3
        self.assertEqual(ep.checksum(array.array("B", bytes.fromhex("0001f203f4f5f6f7"))), 0x220D)
        self.assertEqual(ep.answers(bytearray(b"?\n")), b"bad line\n")
        self.assertEqual(ep.Session().feed(memoryview(b"?\n")), b"bad line\n")
        ends = dict(source="10.0.0.1", destination="10.0.0.2", transport=ep.PlannedUdp(1, 2))
        self.assertEqual(ep.build(bytearray(b"hello"), **ends), ep.build(b"hello", **ends))
        link = ep.PlannedEthernet(bytearray(6), memoryview(bytes(6)))
        self.assertEqual(link, ep.PlannedEthernet(bytes(6), bytes(6)))

    def test_no_buffers(self):
        ends = dict(source="10.0.0.1", destination="10.0.0.2")
        calls = {
            "frame": (ep.slice_ethernet, ep.verdict_ethernet, lambda it: ep.Pool().add(it, 1)),
            "packet": (ep.slice_ip, ep.slice_linux_sll, ep.verdict_ip, ep.verdict_linux_sll),
            "data": (ep.checksum, ep.checksum_is_right),
            "text": (ep.answers,),
            "piece": (lambda it: ep.Session().feed(it),),
            "payload": (lambda it: ep.build(it, transport=1, **ends),),
            "ipv4_options": (lambda it: ep.build(b"", transport=1, ipv4_options=it, **ends),),
            "check_value": (lambda it: ep.PlannedAuthentication(1, 2, it),),
            "sender_protocol": (lambda it: ep.PlannedArp(1, bytes(6), it, bytes(6), bytes(4)),),
            "source": (lambda it: ep.PlannedEthernet(it, bytes(6)),),
            "address": (lambda it: ep.PlannedCapture(0, 6, it),),
        }
        for name, ones in calls.items():
            for call in ones:
                for wrong in "text", 5, None, [1, 2]:
                    kind = type(wrong).__name__
                    text = f"^{name} has to be bytes or another buffer, not {kind}$"
                    with self.subTest(name, wrong=wrong), self.assertRaisesRegex(TypeError, text):
                        call(wrong)

    def test_numbers(self):
        def build(**arguments):
            ends = dict(source="10.0.0.1", destination="10.0.0.2", transport=ep.PlannedUdp(1, 2))
            return ep.build(b"", **{**ends, **arguments})

        for name, greatest, arguments in (
            ("hops", 255, lambda it: dict(hops=it)),
            ("source_port", 65535, lambda it: dict(transport=ep.PlannedUdp(it, 2))),
            ("destination_port", 65535, lambda it: dict(transport=ep.PlannedTcp(1, it))),
            ("sequence_number", 0xFFFFFFFF, lambda it: dict(transport=ep.PlannedTcp(1, 2, sequence_number=it))),
            ("window_size", 65535, lambda it: dict(transport=ep.PlannedTcp(1, 2, window_size=it))),
            ("cwr", 1, lambda it: dict(transport=ep.PlannedTcp(1, 2, cwr=it))),
            ("echo_id", 65535, lambda it: dict(transport=ep.PlannedEcho(1, it, 2))),
            ("transport", 255, lambda it: dict(transport=it)),
            ("packet_type", 65535, lambda it: dict(link=ep.PlannedCapture(it, 6, bytes(8)))),
            ("outer_vlan_id", 65535, lambda it: dict(link=ep.PlannedEthernet(bytes(6), bytes(6), [it]))),
            ("inner_priority", 255, lambda it: dict(link=ep.PlannedEthernet(bytes(6), bytes(6), [1, ep.PlannedTag(1, it)]))),
            ("dscp", 255, lambda it: dict(dscp=it)),
            ("identification", 65535, lambda it: dict(identification=it)),
            ("fragment_offset", 65535, lambda it: dict(fragment_offset=it)),
            ("icmp_code", 255, lambda it: dict(transport=ep.PlannedIcmp(1, ep.TimeExceeded(it)))),
            ("spi", 0xFFFFFFFF, lambda it: dict(extensions=ep.PlannedExtensions(authentication=ep.PlannedAuthentication(it, 1)))),
        ):
            for wrong in -1, greatest + 1, 1 << 70:
                text = f"^{name} is {wrong}, and has to be from 0 to {greatest}$"
                with self.subTest(name, wrong=wrong), self.assertRaisesRegex(ValueError, text):
                    build(**arguments(wrong))
            if name != "transport":
                with self.subTest(name), self.assertRaisesRegex(TypeError, f"^{name} has to be an int, not float$"):
                    build(**arguments(1.5))
        with self.assertRaisesRegex(TypeError, "^transport has to be PlannedUdp, .* not str$"):
            build(transport="udp")
        with self.assertRaisesRegex(TypeError, "^link has to be PlannedEthernet, .* not bytes$"):
            build(link=bytes(14))
        with self.assertRaisesRegex(ValueError, "^source has 5 bytes, and has to have 6$"):
            ep.PlannedEthernet(bytes(5), bytes(6))
        for call in (lambda pool: pool.add(TAGGED, 1.5), lambda pool: pool.forget_before(1.5)):
            with self.assertRaisesRegex(TypeError, "^time has to be an int, not float$"):
                call(ep.Pool())

    def test_times(self):
        far = 10**30
        for first, last in ((-5, 5), (0, 1), ((1 << 64) - 2, (1 << 64) - 1), (-far, 1 - far), (far, far + 1), (1 << 63, 1 << 64)):
            with self.subTest(first=first, last=last), ep.Pool() as pool:
                pool.forget_before(first)
                self.assertIsNone(pool.add(PARTS[0], first))
                pool.forget_before(first)
                self.assertEqual(len(pool), 1)
                self.assertIsNone(pool.add(PARTS[0], last, 1))
                pool.forget_before(last)
                self.assertEqual(len(pool), 1)
                self.assertEqual(pool.add(PARTS[1], first, 1).data, bytes(range(16)))
                self.assertIsNone(pool.add(PARTS[1], first))
                pool.forget_before(last + 1)
                self.assertEqual(len(pool), 0)

    def test_far_times(self):
        with ep.Pool() as pool:
            pool.add(PARTS[0], 0)
            pool.add(PARTS[0], 10**30, 1)
            pool.add(PARTS[0], -(10**30), 2)
            self.assertEqual(len(pool), 3)
            pool.forget_before(0)
            self.assertEqual(len(pool), 2)
            pool.forget_before(10**30)
            self.assertEqual(len(pool), 1)


class Handles(unittest.TestCase):
    def test_an_empty_pool_is_true(self):
        pool = ep.Pool()
        self.assertEqual(len(pool), 0)
        self.assertTrue(pool)
        pool.close()
        self.assertTrue(pool)

    def test_nothing_is_raised_where_one_is_dropped(self):
        raised = []
        old, sys.unraisablehook = sys.unraisablehook, raised.append
        try:
            for kind in ep.Pool, ep.Session:
                del_only = kind.__new__(kind)
                closed = kind()
                closed.close()
                opened = kind()
                del del_only, closed, opened
            gc.collect()
        finally:
            sys.unraisablehook = old
        self.assertEqual(raised, [])

    def test_context(self):
        with ep.Pool() as pool, ep.Session() as session:
            self.assertIsInstance(pool, ep.Pool)
            self.assertIsInstance(session, ep.Session)
        with self.assertRaisesRegex(ValueError, "^the pool is closed$"):
            pool.add(TAGGED, 1)
        with self.assertRaisesRegex(ValueError, "^the session is closed, or has ended$"):
            session.feed(b"")


class Documentation(unittest.TestCase):
    def test_public_calls_have_hints_and_a_text(self):
        for name in ep.__all__:
            item = getattr(ep, name)
            # A union of public classes has no text of its own.
            if typing.get_origin(item) is typing.Union:
                continue
            self.assertTrue(item.__doc__, name)
            self.assertEqual(item.__module__, "etherparse_proved")
            calls = [item] if inspect.isfunction(item) else []
            for own, member in vars(item).items() if isinstance(item, type) else ():
                member = member.fget if isinstance(member, property) else member
                if inspect.isfunction(member) and not own.startswith("_"):
                    calls.append(member)
            for call in calls:
                with self.subTest(name, call=call.__name__):
                    self.assertTrue(call.__doc__)
                    wanted = {*inspect.signature(call).parameters, "return"} - {"self"}
                    self.assertEqual(set(call.__annotations__), wanted)


if __name__ == "__main__":
    unittest.main()
