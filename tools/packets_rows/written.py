"""The captures that packets_cli writes by -w, by docs/PACKETS.md: byte for byte what Python makes of the packets of its input. Where
tshark is installed, it reads the same packets of both."""

import os
import shutil
import struct
import subprocess
import tempfile

import outputs

HEADER = struct.pack("<IHHiIII", 0xA1B23C4D, 2, 4, 0, 0, 262144, 1)
# Captures of Ethernet frames with this header: but for a record that states less than was captured, the file itself is written.
SAME = ("arp", "tcp", "vlan", "macsec", "fragments_ipv4", "refused", "refused_fragments", "snap_length", "snap_length_headers", "cut_links")
# A capture, what its link's header has before the packet, and where in it the source address and the type are, if they are.
LINKS = (("cooked", 16, 6, 14), ("snap_length_cooked", 16, 6, 14), ("cooked_v2", 20, 12, 0), ("raw_ip", 0, None, None))
CONDITIONS = ("frame=2..3", "frame>=3", "not frame=1")
NUMBERS = {"frame=2..3": (2, 3), "frame>=3": range(3, 10**6), "not frame=1": range(2, 10**6)}


def run(program, folder, *words, **known):
    known = {"stdin": subprocess.DEVNULL, "capture_output": True} | known
    return subprocess.run([program, *words], cwd=folder, timeout=60, check=False, **known)


def bytes_of(folder, name):
    with open(os.path.join(folder, name), "rb") as file:
        return file.read()


def records(data):
    """The records of a classic capture of low byte first, in nanoseconds: seconds, nanoseconds, length on the wire, bytes."""
    at = 24
    while at < len(data):
        second, nano, size, wire = struct.unpack_from("<IIII", data, at)
        yield second, nano, wire, data[at + 16 : at + 16 + size]
        at += 16 + size


def encoded(record):
    second, nano, wire, data = record
    return struct.pack("<IIII", second, nano, len(data), max(wire, len(data))) + data


def framed(record, size, source, kind):
    """The record of the Ethernet II frame of a packet of another link."""
    second, nano, wire, data = record
    address = bytes(6)
    if source is None:
        ether_type = b"\x08\0" if data[0] >> 4 == 4 else b"\x86\xdd"
    else:
        ether_type = data[kind : kind + 2]
        count = data[11] if size == 20 else struct.unpack(">H", data[4:6])[0]
        address = data[source : source + 6] if count == 6 else address
    missing = max(0, wire - len(data))
    frame = bytes(6) + address + ether_type + data[size:]
    return second, nano, len(frame) + missing, frame


def wanted(data, numbers=None):
    kept = [it for number, it in enumerate(records(data), 1) if numbers is None or number in numbers]
    return HEADER + b"".join(map(encoded, kept))


def of_links(program, folder):
    for name in SAME:
        data = bytes_of(folder, f"{name}.pcap")
        done = run(program, folder, "-w", "-", f"{name}.pcap")
        yield f"the same capture: {name}", (done.returncode, done.stdout, done.stderr) == (0, wanted(data), b"")
        for text in CONDITIONS:
            done = run(program, folder, "show", "--write=-", "--only", text, f"{name}.pcap")
            yield f"{text} of {name}", (done.returncode, done.stdout) == (0, wanted(data, NUMBERS[text]))
    for name, *parts in LINKS:
        data = bytes_of(folder, f"{name}.pcap")
        frames = b"".join(encoded(framed(it, *parts)) for it in records(data))
        done = run(program, folder, "-w", "-", f"{name}.pcap")
        yield f"another link: {name}", (done.returncode, done.stdout) == (0, HEADER + frames)


def of_files(program, folder):
    """Several inputs, and a file that is written."""
    one, other = bytes_of(folder, "arp.pcap"), bytes_of(folder, "tcp.pcap")
    with tempfile.TemporaryDirectory() as place:
        path = os.path.join(place, "written.pcap")
        with open(path, "wb") as file:
            file.write(bytes(10**6))
        done = run(program, folder, "-w", path, "nothing.pcap", "arp.pcap", "tcp.pcap")
        yield "two captures in a file", (done.returncode, done.stdout, bytes_of(place, path)) == (1, b"", one + other[24:])
        unmade = os.path.join(place, "unmade.pcap")
        done = run(program, folder, "-w", unmade, "nothing.pcap")
        yield "no file where none is read", (done.returncode, os.path.exists(unmade)) == (1, False)
        link = os.path.join(place, "link.pcap")
        os.symlink("written.pcap", link)
        error = b"error: the argument '--write <FILE>' names a file that is read\n"
        for name in (path, link, os.path.join(place, ".", "written.pcap")):
            done = run(program, folder, "-w", name, "arp.pcap", path)
            yield "a file that is read", (done.returncode, done.stderr.startswith(error)) == (2, True)
        yield "which stays as it was", bytes_of(place, path) == one + other[24:]
        done = run(program, folder, "-w", os.path.join(path, "x"), "arp.pcap", "tcp.pcap")
        error = f"packets: {path}/x: cannot be opened: Not a directory (os error 20)\n"
        yield "a file that can't be created", (done.returncode, done.stderr.decode()) == (1, error)
        done = run(program, folder, "-w", path, "empty.pcap", "arp.pcap")
        yield "a refused capture before another one", (done.returncode, bytes_of(place, path)) == (3, one)
    full = 4, b"packets: the output cannot be written\n"
    yield "a full file", outputs.ended(program, ["-w", "/dev/full", "arp.pcap"], folder, subprocess.DEVNULL) == full
    yield "a full output", outputs.on_full_device(program, ["-w", "-", "arp.pcap"], folder) == full
    yield "a closed output", outputs.on_closed_pipe(program, ["-w", "-", "arp.pcap"], folder) == outputs.SILENCE


def growing(program, folder):
    """Of a capture that grows, the record of a packet is there before the next one comes."""
    data = bytes_of(folder, "arp.pcap")
    whole = [encoded(it) for it in records(data)]
    child = subprocess.Popen([program, "-w", "-", "-"], stdin=subprocess.PIPE, stdout=subprocess.PIPE)
    parts = []
    for chunk, size in ((data[:24], 24), (whole[0], len(whole[0])), (whole[1], len(whole[1]))):
        child.stdin.write(chunk)
        child.stdin.flush()
        parts.append(child.stdout.read(size))
    child.stdin.close()
    yield "a capture that grows", (child.wait(60), b"".join(parts)) == (0, HEADER + whole[0] + whole[1])


FIELDS = [it for name in ("frame.time_epoch", "frame.len", "frame.cap_len", "frame.protocols") for it in ("-e", name)]


def by_tshark(program, folder):
    if shutil.which("tshark") is None:
        return
    for name, text, shown in (("snap_length", "cut", "frame.cap_len < frame.len"), ("tcp", "len>=60", "frame.len >= 60")):
        with tempfile.NamedTemporaryFile(suffix=".pcap") as file:
            run(program, folder, "-w", file.name, "--only", text, f"{name}.pcap")
            theirs = run("tshark", folder, "-r", f"{name}.pcap", "-Y", shown, "-T", "fields", *FIELDS).stdout
            ours = run("tshark", folder, "-r", file.name, "-T", "fields", *FIELDS).stdout
            yield f"tshark reads {name}", ours == theirs != b""


def checked(program, folder):
    """The name of each check, and whether all was well."""
    for checks in (of_links, of_files, growing, by_tshark):
        yield from checks(program, folder)
