"""Packets of captures, and captures that are written: run as the tests beside this."""

import copy
import dataclasses
import gc
import io
import pickle
import tempfile
import threading
import tracemalloc
import unittest
import warnings
from pathlib import Path
from unittest import mock

import etherparse_proved as ep
from etherparse_proved import _captures

TABLE = Path(__file__).resolve().parents[2] / "c/tests/captures.txt"


class Chunks(io.RawIOBase):
    """A file that gives a few bytes at a time."""

    def __init__(self, data, size):
        super().__init__()
        self.file, self.size = io.BytesIO(data), size

    def read(self, size=-1):
        return self.file.read(min(size, self.size))


class Few(io.RawIOBase):
    """A file that takes a few bytes at a time."""

    def __init__(self):
        super().__init__()
        self.data = b""

    def write(self, data):
        self.data += bytes(data[:7])
        return len(data[:7])


class Records(io.RawIOBase):
    """A file header and so many records of this frame, which are made as they are read."""

    def __init__(self, frame, count):
        super().__init__()
        self.waiting = HEADER
        self.record = bytes(8) + 2 * len(frame).to_bytes(4, "little") + frame
        self.left = count

    def read(self, size=-1):
        while self.left and len(self.waiting) < size:
            self.waiting += self.record
            self.left -= 1
        taken, self.waiting = self.waiting[:size], self.waiting[size:]
        return taken


# A file header, low byte first, times in microseconds, of Ethernet; and a record of a byte.
HEADER = bytes.fromhex("d4c3b2a10200040000000000000000000000040001000000")
RECORD = bytes.fromhex("00000000000000000100000001000000ff")


class Table(unittest.TestCase):
    def test_table(self):
        for size in (1, 7, 1 << 16):
            capture = None
            for line in TABLE.read_text().splitlines():
                call, *words = line.split()
                with self.subTest(line=line, size=size):
                    if call == "capture":
                        capture = ep.Capture(Chunks(bytes.fromhex(words[1].strip("-")), size), skip=words[0] == "1")
                    elif call == "packet":
                        number, time, wire_len, link, interface = map(int, words[:5])
                        wanted = ep.CapturedPacket(
                            number, time, wire_len, ep.CaptureLink(link), interface, bytes.fromhex(words[5])
                        )
                        self.assertEqual(next(capture), wanted)
                    elif call == "whole":
                        self.assertEqual(list(capture), [])
                    elif call == "refused":
                        kind, value, minor, packet, offset, block_type = map(int, words)
                        for _ in range(2):
                            with self.assertRaises(ep.CaptureRefused) as raised:
                                next(capture)
                            self.assertEqual(raised.exception.args, (kind, value, minor, packet, offset, block_type))
                    elif call == "header":
                        file = io.BytesIO()
                        ep.CaptureWriter(file, nanoseconds=words[0] == "1")
                        self.assertEqual(file.getvalue().hex(), words[1])


class Captures(unittest.TestCase):
    # By hand: 2 seconds, 3004 nanoseconds; 2 bytes of 9.
    def test_written(self):
        for nanoseconds, fraction in ((False, "03000000"), (True, "bc0b0000")):
            file = io.BytesIO()
            with ep.CaptureWriter(file, nanoseconds) as writer:
                writer.write(bytearray(b"\xab\xcd"), 2_000_003_004, 9)
                writer.write(b"", 0)
            record = f"02000000{fraction}0200000009000000abcd" + "00" * 16
            self.assertEqual(file.getvalue()[24:].hex(), record)

    def test_times_that_fit(self):
        with ep.CaptureWriter(io.BytesIO()) as writer:
            writer.write(b"", 4_294_967_295_999_999_999)
            for time in (4_294_967_296_000_000_000, -1):
                with self.assertRaises(ValueError):
                    writer.write(b"", time)
            with self.assertRaises(ValueError):
                writer.write(b"", 0, 1 << 32)

    def test_paths(self):
        with tempfile.TemporaryDirectory() as folder:
            path = Path(folder) / "x.pcap"
            with ep.CaptureWriter(path) as writer:
                writer.write(b"\x01", 1000)
            with ep.Capture(str(path)) as capture:
                self.assertEqual([packet.bytes for packet in capture], [b"\x01"])
            with self.assertRaises(ValueError):
                next(capture)
            capture.close()
            with self.assertRaises(FileNotFoundError):
                ep.Capture(Path(folder) / "none")

    def test_a_file_object_stays_open(self):
        file = io.BytesIO(bytes(24))
        with ep.Capture(file) as capture:
            with self.assertRaises(ep.CaptureRefused) as raised:
                next(capture)
        self.assertEqual(str(raised.exception), "packet 1, byte 0: no capture file")
        self.assertFalse(file.closed)

    def test_files_that_are_no_captures(self):
        for data, text in (
            (b"", "packet 1, byte 0: no capture file"),
            (b"\x1f\x8b" + bytes(60), "packet 1, byte 0: no capture file"),
            (HEADER[:23], "packet 1, byte 0: no capture file"),
            (HEADER + RECORD + RECORD[:9], "packet 2, byte 41: the capture ends within a packet"),
            (HEADER + RECORD + RECORD[:-1], "packet 2, byte 41: the capture ends within a packet"),
            (HEADER + bytes(8) + b"\xff" * 8, "packet 1, byte 24: a packet of 4294967295 bytes is too long"),
        ):
            with self.subTest(data=data), self.assertRaises(ep.CaptureRefused) as raised:
                list(ep.Capture(io.BytesIO(data)))
            self.assertEqual(str(raised.exception), text)
            copied = pickle.loads(pickle.dumps(raised.exception))
            self.assertEqual((str(copied), vars(copied)), (text, vars(raised.exception)))

    def test_a_capture_is_not_held(self):
        frame, count = bytes(60_000), 500
        capture = ep.Capture(Records(frame, count))
        tracemalloc.start()
        self.assertTrue(all(packet.bytes == frame for packet in capture))
        self.assertLess(tracemalloc.get_traced_memory()[1], 2_000_000)
        tracemalloc.stop()
        self.assertEqual(next(capture, None), None)

    def test_arguments(self):
        capture, writer = ep.Capture(io.BytesIO(HEADER)), ep.CaptureWriter(io.BytesIO())
        for call, error, text in (
            (lambda: ep.Capture(5), TypeError, "file has to be a path or a file object, not int"),
            (lambda: ep.CaptureWriter(b"x.pcap"), TypeError, "file has to be a path or a file object, not bytes"),
            (lambda: next(ep.Capture(io.StringIO("x"))), TypeError, "what the file's read returns has to be bytes .* not str"),
            (lambda: next(ep.Capture(mock.Mock(read=lambda n: bytes(n + 1)))), ValueError, "returned 262145 bytes, and was asked for 262144"),
            (lambda: writer.write("x", 1), TypeError, "frame has to be bytes or another buffer, not str"),
            (lambda: writer.write(b"", 1.5), TypeError, "time has to be an int, not float"),
            (lambda: writer.write(b"", -1), ValueError, "time is -1, and has to be from 0 to 4294967295999999999"),
            (lambda: writer.write(b"", 1, -1), ValueError, "wire_len is -1, and has to be from 0 to 4294967295"),
            (lambda: writer.write(bytes(99_992), 1), ValueError, "the length of frame is 99992, and has to be from 0 to 99991"),
            (lambda: copy.copy(capture), TypeError, "a Capture can't be copied or pickled"),
            (lambda: setattr(capture, "numbr", 1), AttributeError, "numbr"),
            (lambda: setattr(writer, "numbr", 1), AttributeError, "numbr"),
        ):
            with self.subTest(text=text), self.assertRaisesRegex(error, text):
                call()

    def test_what_is_written_is_read(self):
        frames = [b"", b"\x01", bytes(1514), bytes(99_991)]
        for nanoseconds, unit in ((False, 1000), (True, 1)):
            for file in io.BytesIO(), Few():
                with ep.CaptureWriter(file, nanoseconds) as writer:
                    for number, frame in enumerate(frames):
                        writer.write(frame, 1_700_000_000_000_000_000 + number * unit, 9)
                with self.assertRaisesRegex(ValueError, "^the writer is closed$"):
                    writer.write(b"", 0)
                packets = list(ep.Capture(io.BytesIO(file.getvalue() if isinstance(file, io.BytesIO) else file.data)))
                # A packet of no byte has a number, and isn't given.
                self.assertEqual([it.number for it in packets], [2, 3, 4])
                self.assertEqual([it.bytes for it in packets], frames[1:])
                self.assertEqual([it.wire_len for it in packets], [9, 1514, 99_991])
                self.assertEqual([it.time % 1_000_000_000 for it in packets], [unit, 2 * unit, 3 * unit])

    def test_a_full_file_is_no_success(self):
        writer = ep.CaptureWriter(io.BytesIO())
        writer._file = mock.Mock(write=lambda _: 0)
        with self.assertRaisesRegex(OSError, "^the file takes no bytes$"):
            writer.write(b"\x01", 1)

    def test_a_path_is_closed(self):
        with tempfile.TemporaryDirectory() as folder, warnings.catch_warnings():
            warnings.simplefilter("error")
            path = Path(folder) / "x.pcap"
            path.write_bytes(HEADER + RECORD)
            self.assertEqual(len([packet for packet in ep.Capture(path)]), 1)
            ended, dropped = ep.Capture(path), ep.Capture(path)
            self.assertEqual(len(list(ended)), 1)
            self.assertEqual(next(ended, None), None)
            del dropped
            gc.collect()

    def test_a_read_that_fails_changes_nothing(self):
        capture = ep.Capture(io.BytesIO(HEADER + 2 * RECORD))
        read = capture._file
        capture._file = mock.Mock(read=mock.Mock(side_effect=OSError("no")))
        for _ in range(2):
            with self.assertRaisesRegex(OSError, "^no$"):
                next(capture)
        capture._file = read
        self.assertEqual([packet.number for packet in capture], [1, 2])

    def test_a_second_call_at_once_is_refused(self):
        capture, writer = ep.Capture(io.BytesIO(HEADER + 2 * RECORD)), ep.CaptureWriter(io.BytesIO())
        for name, held, started, others in (
            ("capture", "ep_capture_next", lambda: next(capture), (lambda: next(capture), capture.close)),
            ("writer", "write", lambda: writer.write(b"\x01", 1), (lambda: writer.write(b"\x02", 2), writer.close)),
        ):
            entered, may_end = threading.Event(), threading.Event()
            owner = _captures.etherparse if name == "capture" else writer._file
            call = getattr(owner, held)

            def slow(*arguments):
                entered.set()
                self.assertTrue(may_end.wait(60))
                return call(*arguments)

            if name == "writer":
                writer._file = mock.Mock(write=slow)
                patched = mock.patch.object(writer._file, "close", lambda: None)
            else:
                patched = mock.patch.object(owner, held, slow)
            with patched:
                thread = threading.Thread(target=started)
                thread.start()
                try:
                    self.assertTrue(entered.wait(60))
                    for other in others * 3:
                        with self.assertRaisesRegex(ep.InUse, f"^the {name} is in use: another call to it hasn't returned$"):
                            other()
                finally:
                    may_end.set()
                    thread.join()
        self.assertEqual([packet.number for packet in capture], [2])
        written = owner.getvalue()
        self.assertEqual([packet.bytes for packet in ep.Capture(io.BytesIO(written))], [b"\x01"])

    def test_threads_lose_no_packet(self):
        capture, found = ep.Capture(io.BytesIO(HEADER + 4000 * RECORD)), [[] for _ in range(4)]

        def job(number):
            while True:
                try:
                    found[number].append(next(capture).number)
                except ep.InUse:
                    pass
                except StopIteration:
                    return

        threads = [threading.Thread(target=job, args=(number,)) for number in range(len(found))]
        for thread in threads:
            thread.start()
        for thread in threads:
            thread.join()
        self.assertEqual(sorted(sum(found, [])), list(range(1, 4001)))
        self.assertTrue(all(numbers == sorted(numbers) for numbers in found))

    def test_packets_are_frozen(self):
        packet = ep.CapturedPacket(1, 0, 2, ep.CaptureLink.IP, 0, b"")
        with self.assertRaises(dataclasses.FrozenInstanceError):
            packet.number = 2


if __name__ == "__main__":
    unittest.main()
