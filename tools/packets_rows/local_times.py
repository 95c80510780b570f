"""Local times, by zones that TZ names (POSIX.1-2017, section 8.3): as Python shows the same times, or by hand."""

import datetime
import os
import subprocess
import tempfile
import zoneinfo

import expected
from worked import Worked

FRAME = "ffffffffffff020000000001080600010800060400010200000000010a0000010000000000000a000002"
LINE = "ARP who has 10.0.0.2? tell 10.0.0.1"
# One in November, one in July, and two around the end of summer time in Europe in 2023.
SECONDS = [0.25, 20_000_000.5, 1_698_541_199 - 1_700_000_000, 1_698_541_200 - 1_700_000_000]
CAPTURE = Worked("local", 1, [FRAME] * len(SECONDS), [], seconds=SECONDS)
CENTRAL = ("2023-11-14T23:13:20.250000+01:00", "2024-07-03T11:46:40.500000+02:00", "2023-10-29T02:59:59.000000+02:00", "2023-10-29T02:00:00.000000+01:00")
BY_HAND = {
    "CET-1CEST,M3.5.0,M10.5.0/3": CENTRAL,
    "": ("2023-11-14T22:13:20.250000+00:00", "2024-07-03T09:46:40.500000+00:00", "2023-10-29T00:59:59.000000+00:00", "2023-10-29T01:00:00.000000+00:00"),
    "NST3:30": ("2023-11-14T18:43:20.250000-03:30", "2024-07-03T06:16:40.500000-03:30", "2023-10-28T21:29:59.000000-03:30", "2023-10-28T21:30:00.000000-03:30"),
    "LMT-0:53:28": ("2023-11-14T23:06:48.250000+00:53:28", "2024-07-03T10:40:08.500000+00:53:28", "2023-10-29T01:53:27.000000+00:53:28", "2023-10-29T01:53:28.000000+00:53:28"),
}
NAMES = ("Europe/Berlin", ":America/St_Johns", "Asia/Kolkata")


def by_python(name):
    zone = zoneinfo.ZoneInfo(name.removeprefix(":"))
    for second in CAPTURE.seconds:
        time = expected.BEGIN + int(second * 10**9)
        at = datetime.datetime.fromtimestamp(time // 10**9, zone)
        offset = at.strftime("%z")
        yield f"{at:%Y-%m-%dT%H:%M:%S}.{time % 10**9 // 1000:06}{offset[:3]}:{offset[3:]}"


def shown(program, path, zone):
    done = subprocess.run([program, "--time", "local", path], env=os.environ | {"TZ": zone}, capture_output=True, encoding="utf-8", timeout=60, check=False)
    return done.returncode, done.stdout.splitlines(), done.stderr


def checked(program, _folder):
    """The name of each check, and whether all was well."""
    with tempfile.TemporaryDirectory() as place:
        path = os.path.join(place, "local.pcap")
        with open(path, "wb") as file:
            file.write(CAPTURE.data())
        wanted = dict(BY_HAND)
        if os.path.exists("/usr/share/zoneinfo/Europe/Berlin"):
            wanted |= {name: tuple(by_python(name)) for name in NAMES}
            assert wanted["Europe/Berlin"] == CENTRAL
        for zone, times in wanted.items():
            lines = [f"{at + 1:5} {time} {LINE}" for at, time in enumerate(times)]
            yield f"local times in {zone!r}", shown(program, path, zone) == (0, lines, "")
        status, lines, noted = shown(program, path, "No/Such")
        yield "a zone that isn't there", (status, lines) == (1, []) and noted.startswith("packets: the local time zone cannot be read: ")
