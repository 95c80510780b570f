"""TCP streams, keys and states of connections, and tables of them: run as the tests beside this."""

import array
import copy
import dataclasses
import ipaddress
import pickle
import threading
import unittest
from pathlib import Path
from unittest import mock

import etherparse_proved as ep
from etherparse_proved import _streams

TABLE = Path(__file__).resolve().parents[2] / "c/tests/streams.txt"
KEYS = {"ethernet": ep.flow_key_ethernet, "linux_sll": ep.flow_key_linux_sll, "ip": ep.flow_key_ip}
LOWER, HIGHER = ep.Direction.FROM_LOWER, ep.Direction.FROM_HIGHER
ACK = ep.SegmentFlags(ack=True)


def bytes_of(text):
    return b"" if text == "-" else bytes.fromhex(text)


def flags_of(letters):
    return ep.SegmentFlags(*(letter in letters for letter in "SAFR"))


def conflicts_of(text):
    return ep.Conflicts() if text == "-" else ep.Conflicts(*map(int, text.split("@")))


def endpoint(address, port):
    return ep.Endpoint(ipaddress.ip_address(bytes_of(address)), int(port))


def frame(back=False, flags=0x10):
    """A TCP segment over IPv4, from 10.0.0.1 port 1 to 10.0.0.2 port 2, or back, with these flags and the payload 'hi'."""
    ends, ports = ("0a0000020a000001", "00020001") if back else ("0a0000010a000002", "00010002")
    header = f"4500002a0001000040060000{ends}{ports}000000090000000050{flags:02x}200000000000"
    return bytes.fromhex("0200000000020200000000010800" + header) + b"hi"


class Table(unittest.TestCase):
    def test_table(self):
        stream, connection = ep.Stream(0), ep.ConnectionState()
        for line in TABLE.read_text().splitlines():
            call, *words = line.split()
            with self.subTest(line=line):
                if call == "stream":
                    stream = ep.Stream(int(words[0]))
                elif call == "add":
                    self.add(stream, *words)
                elif call == "read":
                    self.assertEqual(stream.read(int(words[0])), bytes_of(words[1]))
                elif call == "progress":
                    self.progress(stream, *words)
                elif call == "key":
                    self.key(*words)
                elif call == "connection":
                    connection = ep.ConnectionState()
                elif call == "segment":
                    direction, letters, state, of = words
                    connection = connection.after(ep.Direction(int(direction)), flags_of(letters))
                    wanted = ep.ConnectionState(ep.State(int(state)), ep.Direction(int(of)) if of != "0" else None)
                    self.assertEqual(connection, wanted)
                else:
                    self.assertEqual(call, "#")

    def add(self, stream, number, letters, payload, answer, *rest):
        arguments = int(number), flags_of(letters), bytes_of(payload)
        if answer == "at":
            self.assertEqual(stream.add(*arguments), ep.AddedSegment(int(rest[0]), conflicts_of(rest[1])))
            return
        before = stream.progress()
        with self.assertRaises(ep.SegmentRefused) as refused:
            stream.add(*arguments)
        self.assertEqual(refused.exception, ep.SegmentRefused(*map(int, rest)))
        self.assertEqual(stream.progress(), before)

    def progress(self, stream, available, consumed, gap, conflicts, said):
        wanted = ep.StreamProgress(
            int(available),
            int(consumed),
            None if gap == "-" else ep.Gap(*map(int, gap.split("-"))),
            conflicts_of(conflicts),
            *(letter in said for letter in "frl"),
        )
        self.assertEqual(stream.progress(), wanted)
        found = stream.gap, stream.conflicts, stream.is_finished
        self.assertEqual(found, (wanted.gap, wanted.conflicts, wanted.is_finished))

    def key(self, call, channel, packet, answer, *words):
        found = KEYS[call](bytes_of(packet), int(channel))
        if answer in ("none", "refused"):
            self.assertIsNone(found)
            return
        *ends, own_channel, vlan_ids = words
        lower, higher = endpoint(*ends[:2]), endpoint(*ends[2:])
        ids = tuple(int(it) for it in vlan_ids.split(",") if it != "-")
        key, direction = found
        self.assertEqual(found, (ep.FlowKey(lower, higher, ids, int(own_channel)), ep.Direction(int(answer))))
        self.assertEqual(key.endpoints(LOWER), (lower, higher))
        self.assertEqual(key.endpoints(HIGHER), (higher, lower))
        self.assertEqual(ep.FlowKey.between(*key.endpoints(direction), ids, key.channel), found)


class Streams(unittest.TestCase):
    def test_segments_of_packets(self):
        packet = ep.slice_ethernet(frame())
        with ep.Stream(100) as stream:
            for data in (packet.payload, bytearray(b"hi"), memoryview(b"hi"), array.array("B", b"hi")):
                added = stream.add(packet.tcp.sequence_number, packet.tcp, data)
                self.assertEqual(added, ep.AddedSegment(0, ep.Conflicts()))
            self.assertEqual((stream.read(1), stream.read(0), stream.read(), stream.read()), (b"h", b"", b"i", b""))

    def test_arguments(self):
        with ep.Stream(100) as stream:
            for call, error, text in (
                (lambda: stream.add(2**32, ACK, b""), ValueError, "sequence_number is 4294967296, and has to be from 0 to 42949"),
                (lambda: stream.add(-1, ACK, b""), ValueError, "sequence_number is -1"),
                (lambda: stream.add("1", ACK, b""), TypeError, "sequence_number has to be an int, not str"),
                (lambda: stream.add(1, 16, b""), TypeError, "flags has to be SegmentFlags or the tcp of a packet, not int"),
                (lambda: stream.add(1, ACK, "a"), TypeError, "payload has to be bytes or another buffer, not str"),
                (lambda: stream.read("1"), TypeError, "size has to be an int, not str"),
                (lambda: ep.Stream(-1), ValueError, "window is -1"),
                (lambda: ep.Stream(2**64), ValueError, "window is 18446744073709551616"),
                (lambda: ep.flow_key_ip("a"), TypeError, "packet has to be bytes"),
                (lambda: ep.flow_key_ethernet(b"", 2**32), ValueError, "channel is 4294967296"),
            ):
                with self.subTest(text=text), self.assertRaisesRegex(error, text):
                    call()
            self.assertEqual(stream.progress().available, 0)

    def test_chunks_end_where_a_byte_is_missing(self):
        text = bytes(i % 251 for i in range(150_000))
        with ep.Stream(200_000) as stream:
            for start in (0, 50_000, 110_000):
                stream.add(start, ACK, text[start : start + 40_000])
            self.assertEqual(list(stream), [text[:40_000]])
            self.assertEqual(list(stream), [])
            stream.add(40_000, ACK, text[40_000:110_000])
            self.assertEqual(list(stream), [text[40_000:105_536], text[105_536:]])

    def test_refusals(self):
        for refused, reason, text in (
            (ep.SegmentRefused(1, 9), "outside_window", "a segment that ends after the window, which ends at byte 9"),
            (ep.SegmentRefused(2, 3), "after_fin", "FIN at byte 3, and a byte or FIN after it"),
            (ep.SegmentRefused(3), "after_reset", "a segment after the connection was reset"),
        ):
            self.assertEqual((refused.reason, str(refused)), (reason, text))
            self.assertEqual({pickle.loads(pickle.dumps(refused))}, {refused})

    def test_closed(self):
        stream = ep.Stream(10)
        stream.close()
        stream.close()
        for call in (lambda: stream.add(1, ACK, b""), stream.read, stream.progress, lambda: stream.gap):
            with self.assertRaisesRegex(ValueError, "^the stream is closed$"):
                call()
        with self.assertRaisesRegex(TypeError, "a Stream can't be copied or pickled"):
            copy.copy(stream)

    def test_without_memory(self):
        with mock.patch.object(_streams.etherparse, "ep_stream_new", lambda *_: 2), self.assertRaises(MemoryError):
            ep.Stream(10)
        none = mock.Mock(status=2)
        with ep.Stream(10) as stream, mock.patch.object(_streams.etherparse, "ep_stream_add", lambda *_: none):
            with self.assertRaises(MemoryError):
                stream.add(1, ACK, b"a")

    def test_a_second_call_at_once_is_refused(self):
        stream = ep.Stream(100)
        call, entered, may_end = _streams.etherparse.ep_stream_add, threading.Event(), threading.Event()

        def slow(*arguments):
            entered.set()
            self.assertTrue(may_end.wait(60))
            return call(*arguments)

        with mock.patch.object(_streams.etherparse, "ep_stream_add", slow):
            thread = threading.Thread(target=stream.add, args=(1, ACK, b"a"))
            thread.start()
            try:
                self.assertTrue(entered.wait(60))
                for other in (lambda: stream.add(2, ACK, b"b"), stream.read, stream.progress, stream.close):
                    with self.assertRaisesRegex(ep.InUse, "^the stream is in use: another call to it hasn't returned$"):
                        other()
            finally:
                may_end.set()
                thread.join()
        self.assertEqual(stream.read(), b"a")


class Flows(unittest.TestCase):
    def key(self, port):
        ends = (ep.Endpoint(ipaddress.ip_address(text), number) for text, number in (("10.0.0.1", port), ("10.0.0.2", 80)))
        return ep.FlowKey.between(*ends)[0]

    def test_frames(self):
        flows = ep.Flows(2, lambda: ep.Stream(100))
        for number, (back, flags) in enumerate(((False, 0x02), (True, 0x12), (False, 0x10), (False, 0x11))):
            data = frame(back, flags)
            packet, (key, direction) = ep.slice_ethernet(data), ep.flow_key_ethernet(data)
            self.assertIsNone(flows.add(key, direction, packet.tcp, 10 - number, len(data)))
            if direction is LOWER:
                flows.get(key).value.add(packet.tcp.sequence_number, packet.tcp, packet.payload)
        self.assertTrue(key in flows and len(flows) == 1)
        key, flow = flows.pop_oldest()
        self.assertEqual(str(key.lower.address), "10.0.0.1")
        self.assertEqual((flow.from_lower, flow.from_higher), (ep.Traffic(3, 168), ep.Traffic(1, 56)))
        self.assertEqual((flow.first, flow.last), (7, 10))
        self.assertEqual(flow.state, ep.ConnectionState(ep.State.CLOSING, LOWER))
        self.assertEqual(flow.value.read(), b"hi")
        self.assertIsNone(flows.pop_oldest())
        self.assertTrue(flows)

    def test_the_flow_that_is_silent_for_the_longest_time_is_dropped(self):
        values = iter(("one", "two", "three"))
        flows = ep.Flows(2, lambda: next(values))
        self.assertIsNone(flows.add(self.key(1), LOWER, ACK, 1))
        self.assertIsNone(flows.add(self.key(2), LOWER, ACK, 2))
        self.assertIsNone(flows.add(self.key(1), HIGHER, ACK, -5, 7))
        dropped, flow = flows.add(self.key(3), LOWER, ACK, 3)
        self.assertEqual((dropped, flow.value, len(flows)), (self.key(2), "two", 2))
        flow = flows.get(self.key(1))
        self.assertEqual((flow.first, flow.last, flow.from_higher), (-5, 1, ep.Traffic(1, 7)))
        flows.replace_value(self.key(1), "changed")
        self.assertEqual([flow.value for _, flow in flows.items()], ["changed", "three"])
        with self.assertRaises(KeyError):
            flows.replace_value(self.key(2), "none")
        self.assertEqual(flows.remove(self.key(1)).value, "changed")
        self.assertIsNone(flows.remove(self.key(1)))
        self.assertEqual(flows.pop_oldest()[0], self.key(3))

    def test_flows_are_kept_in_their_order(self):
        flows, tested = ep.Flows(3, list), []
        for port in (1, 2, 3, 1):
            flows.add(self.key(port), LOWER, ACK, port)

        def keep(key, flow):
            tested.append((key, flow.last))
            return flow.last != 3

        flows.retain(keep)
        self.assertEqual(tested, [(self.key(2), 2), (self.key(3), 3), (self.key(1), 1)])
        self.assertEqual([key for key, _ in flows.items()], [self.key(2), self.key(1)])
        with self.assertRaises(ZeroDivisionError):
            flows.retain(lambda key, flow: 1 // (flow.last - 1))
        self.assertEqual(len(flows), 2)
        flows.retain(lambda key, flow: False)
        self.assertIsNone(flows.pop_oldest())

    def test_a_value_that_can_not_be_made_changes_nothing(self):
        flows = ep.Flows(1, lambda: 1 // len(made))
        made = [1]
        flows.add(self.key(1), LOWER, ACK, 1)
        made.clear()
        with self.assertRaises(ZeroDivisionError):
            flows.add(self.key(2), LOWER, ACK, 2)
        self.assertEqual([key for key, _ in flows.items()], [self.key(1)])

    def test_arguments(self):
        flows = ep.Flows(1, list)
        for call, error, text in (
            (lambda: ep.Flows(0, list), ValueError, "most is 0, and has to be 1 or more"),
            (lambda: ep.Flows("1", list), TypeError, "most has to be an int, not str"),
            (lambda: flows.add(self.key(1), LOWER, ACK, 1.5), TypeError, "time has to be an int, not float"),
            (lambda: flows.add(self.key(1), LOWER, ACK, 1, -1), ValueError, "bytes is -1, and has to be 0 or more"),
            (lambda: flows.add(self.key(1), LOWER, 2, 1), TypeError, "flags has to be"),
        ):
            with self.subTest(text=text), self.assertRaisesRegex(error, text):
                call()
        self.assertEqual(len(flows), 0)

    def test_a_second_call_at_once_is_refused(self):
        refused = []

        def made():
            try:
                flows.pop_oldest()
            except ep.InUse as error:
                refused.append(str(error))

        flows = ep.Flows(1, made)
        flows.add(self.key(1), LOWER, ACK, 1)
        self.assertEqual(refused, ["the table is in use: another call to it hasn't returned"])

    def test_values_are_frozen(self):
        key = self.key(1)
        for value, field in ((key, "channel"), (ACK, "syn"), (ep.ConnectionState(), "state"), (ep.Gap(1, 2), "end")):
            with self.assertRaises(dataclasses.FrozenInstanceError):
                setattr(value, field, 9)
        self.assertEqual(len({key, self.key(1), self.key(2)}), 2)
        self.assertEqual((LOWER.other, HIGHER.other), (HIGHER, LOWER))
        self.assertEqual(pickle.loads(pickle.dumps(key)), key)


if __name__ == "__main__":
    unittest.main()
