"""What tshark and scapy report of a capture: its packets, and their times in nanoseconds. It takes Debian's `tshark` and
`python3-scapy`."""
import json
import logging
import shutil
import subprocess

import captures
import scapy
from captures import BILLION
from scapy.utils import RawPcapNgReader, RawPcapReader

# scapy warns of comments that it doesn't read.
logging.getLogger("scapy").setLevel(logging.ERROR)


def by_tshark(path):
    command = ["tshark", "-n", "-r", path, "-T", "json", "-x"]
    done = subprocess.run(command, capture_output=True, check=True)
    layers = [packet["_source"]["layers"] for packet in json.loads(done.stdout or "[]")]

    def time(layer):
        # A simple packet has no time.
        second, _, part = layer["frame"].get("frame.time_epoch", "0").partition(".")
        return int(second) * BILLION + int(part.ljust(9, "0")[:9])

    return [bytes.fromhex(layer["frame_raw"][0]) for layer in layers], [time(layer) for layer in layers]


def by_scapy(path, classic_file):
    reader = RawPcapReader(path) if classic_file else RawPcapNgReader(path)
    packets, times = [], []
    for packet, header in reader:
        packets.append(bytes(packet))
        if classic_file:
            times.append(header.sec * BILLION + header.usec * (1 if reader.nano else 1000))
        else:
            times.append(((header.tshigh or 0) * 2**32 + (header.tslow or 0)) * BILLION // header.tsresol)
    return packets, times


# Where an interface sets no limit (snap length 0), scapy 2.5.0 gives simple packets of no bytes. It cuts long packets, and
# tshark's JSON of random bytes on other links has its bytes elsewhere: those are compared with what was put in alone.
NOT_SCAPY = {"simple", "skip"}
NOT_TSHARK = {"skip"}
# scapy reads no offset, and no resolution after long options. tshark has times before 1970, and its count of nanoseconds
# overflows where parts are finer.
NOT_THEIR_TIMES = {
    "scapy": {"an hour later", "earlier than 1970", "long options"},
    "tshark": {"earlier than 1970", "picoseconds"},
}


def reports_of(capture, path):
    """What each peer reports of a capture, by its name: packets, and times but where it has others."""
    with open(path, "wb") as file:
        file.write(capture.file)
    reports = {}
    if capture.kind not in NOT_TSHARK:
        reports["tshark"] = by_tshark(path)
    if capture.kind not in NOT_SCAPY:
        reports["scapy"] = by_scapy(path, capture.kind in ("classic", "link"))
    for name, kinds in NOT_THEIR_TIMES.items():
        if name in reports and capture.kind in kinds:
            reports[name] = reports[name][0], None
    return reports


def records(seed, path, step=1):
    """Each capture, or each of so many, with what was put in and what the peers report of it. Frames of other links are scapy's reading of them: there the
    peers have to report the packets that were put in."""
    for number, capture in enumerate(captures.captures(seed, path)):
        if number % step:
            continue
        reports = {"made": (capture.packets, capture.times), **reports_of(capture, path)}
        if capture.wanted is not None:
            for name, (packets, times) in reports.items():
                if packets != capture.packets:
                    raise SystemExit(f"{capture.label}: {name} reports other packets than were put in")
                reports[name] = None, times
            reports["frames"] = capture.wanted, None
        yield {
            "label": capture.label,
            "words": list(capture.words),
            "message": capture.message,
            "file": capture.file.hex(),
            "frames": {name: [it.hex() for it in frames] for name, (frames, _) in reports.items() if frames is not None},
            "times": {name: times for name, (_, times) in reports.items() if times is not None},
        }


def are_there():
    """Whether both are there, in the versions whose words this reads."""
    if shutil.which("tshark") is None or not scapy.VERSION.startswith("2.5."):
        return False
    said = subprocess.run(["tshark", "--version"], capture_output=True, text=True, check=False).stdout
    return said.startswith("TShark (Wireshark) 4.0.")
