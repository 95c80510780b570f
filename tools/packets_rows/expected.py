"""The three outputs of a capture, by docs/PACKETS.md and docs/JSON.md, of what its packets are."""

import dataclasses
import datetime
import decimal
import json
import socket
import struct

BEGIN = 1_700_000_000 * 10**9
TITLES = "   packets   share           bytes   share     first  "
# The rows of protocols in their order. Those over IP follow by their numbers.
LINKS = ("Ethernet", "VLAN", "MACsec", "ARP", "IPv4", "IPv6")
OVER_IP = {"ICMP": 1, "IGMP": 2, "TCP": 6, "UDP": 17, "GRE": 47, "ICMPv6": 58, "IPv6-NoNxt": 59, "SCTP": 132}
OVER_IP |= {"IP protocol 253": 253}
# Extension headers that aren't there: what they are is the protocol of the packet.
OVER_IP |= {"HOPOPT": 0, "IPv6-Frag": 44, "AH": 51, "IPv6-Opts": 60}
VERDICTS = {"good": "Good", "bad": "Bad", "none": "None"}
# The words of `--only` by which fragments differ, beside those of headers.
CONDITIONS = {
    "bad": lambda it: it.check == "bad",
    "refused": lambda it: it.refused,
    "fragments": lambda it: it.outcome,
    "cut": lambda it: it.cut,
}
EIGHTHS = " ▏▎▍▌▋▊▉█"
HEIGHTS = " ▁▂▃▄▅▆▇█"


@dataclasses.dataclass
class Packet:
    """A packet, and what is known of it.

    `data` was captured; `line` is that of `show` after the time; `members` are those of its object
    after `len`, but for the verdict; `kinds` are the protocols that it has headers of; `check` is
    the verdict on its checksum, if it has a message; `outcome` is what became of a fragment;
    `refused` is why it is refused; `talk` are its addresses.
    """

    data: bytes
    line: str
    members: dict
    kinds: tuple
    check: str = None
    outcome: str = None
    refused: str = None
    talk: str = None
    interface: int = 0
    time: int = 0
    number: int = 0
    # The bytes of the header that was captured, and stands in the frame as one of 14 bytes.
    replaced: int = 14
    # The bytes on the wire, if others than those that were captured.
    wire: int = None
    # What stands before how much of it was captured.
    gap: str = ", "

    @property
    def len(self):
        return len(self.data) - self.replaced + 14

    @property
    def wire_len(self):
        return len(self.data) if self.wire is None else self.wire

    @property
    def cut(self):
        return len(self.data) < self.wire_len


def header_verdict(members):
    """Whether the words of an IPv4 header sum to all ones (RFC 1071, section 1); none of a packet that is refused."""
    it = members.get("net", {}).get("Ipv4")
    if not it or "error" in members:
        return None
    options = bytes.fromhex(it["options"])
    flags = it["dont_fragment"] << 14 | it["more_fragments"] << 13 | it["fragment_offset"]
    tos = it["dscp"] << 2 | it["ecn"]
    start = struct.pack("!BBHHHBBH", 0x45 + len(options) // 4, tos, it["total_len"], it["identification"], flags, it["time_to_live"], it["protocol"], it["header_checksum"])
    header = start + b"".join(socket.inet_aton(it[end]) for end in ("source", "destination")) + options
    total = sum(struct.unpack(f"!{len(header) // 2}H", header))
    return "Bad" if total % 65535 else "Good"


def seconds_between(start, end):
    """Seconds to the microsecond, cut towards zero."""
    seconds = decimal.Decimal(end - start) / 10**9
    return seconds.quantize(decimal.Decimal("0.000001"), decimal.ROUND_DOWN)


def epoch(time):
    """Seconds since 1970, with nine digits of the fraction where six don't hold it."""
    text = f"{time // 10**9}.{time % 10**9:09}"
    return text if time % 1000 else text[:-3]


def utc(time):
    whole = datetime.datetime.fromtimestamp(time // 10**9, datetime.timezone.utc)
    return f"{whole:%Y-%m-%dT%H:%M:%S}.{time % 10**9 // 1000:06}Z"


def shown(packets, form="relative"):
    """The lines, with times of this form."""
    before = packets[0]
    for it in packets:
        times = {
            "relative": seconds_between(packets[0].time, it.time),
            "delta": seconds_between(before.time, it.time),
            "epoch": epoch(it.time),
            "utc": utc(it.time),
        }
        before = it
        cut = f"{it.gap}cut at {len(it.data)} of {it.wire_len} bytes" if it.cut else ""
        bad = "  header checksum bad" if header_verdict(it.members) == "Bad" else ""
        yield f"{it.number:5} {times[form]:>10} {it.line}{bad}{cut}"


def objects(packets, link_type):
    for it in packets:
        members = {
            "number": it.number,
            "time": it.time,
            "interface": it.interface,
            "link_type": link_type,
            "len": it.len,
            "wire_len": it.wire_len,
        }
        members |= it.members | ({"verdict": VERDICTS[it.check]} if it.check else {})
        header = header_verdict(it.members)
        members |= {"header_verdict": header} if header else {}
        yield json.dumps(members, separators=(",", ":"))


def share(part, whole):
    # Rounded to tenths, a half upwards, but less than a whole stays below it.
    tenths = (2000 * part + whole) // (2 * whole)
    tenths = min(tenths, 999) if part < whole else tenths
    return f"{tenths // 10:3}.{tenths % 10} %"


def row(packets, chosen, name):
    size = sum(it.len for it in chosen)
    shares = share(len(chosen), len(packets)), share(size, sum(it.len for it in packets))
    return f"{len(chosen):10} {shares[0]} {size:15} {shares[1]} {chosen[0].number:9}  {name}"


def table(packets, title, rows):
    """A table of the rows that have packets, if there are any."""
    rows = [(name, chosen) for name, chosen in rows if chosen]
    if rows:
        yield f"{TITLES}{title}"
        yield from (row(packets, chosen, name) for name, chosen in rows)
        yield ""


def by(packets, key):
    """The packets of each key that some packet has, in the order in which they came first."""
    found = {}
    for it in packets:
        if key(it) is not None:
            found.setdefault(key(it), []).append(it)
    return list(found.items())


def steps(part, whole, count):
    """So many steps of `count`, rounded up."""
    return -(-part * count // whole)


def sizes(packets):
    yield "   packets   share  bytes of a frame"
    found = by(sorted(packets, key=lambda it: it.len), lambda it: it.len.bit_length())
    most = max(len(chosen) for _, chosen in found)
    for digits, chosen in found:
        eighths = steps(len(chosen), most, 8 * 32)
        bar = "█" * (eighths // 8) + EIGHTHS[eighths % 8].strip()
        ends = f"{2 ** (digits - 1):6} to {2**digits - 1:<6}"
        yield f"{len(chosen):10} {share(len(chosen), len(packets))}  {ends} {bar}"
    yield ""


def rate(packets):
    """At most 64 spans of 1/512 second, doubled as often as needed.

    What came before the first packet counts to the first span.
    """
    since = [max(it.time - packets[0].time, 0) for it in packets]
    span = 10**9 // 512
    while max(since) // span >= 64:
        span *= 2
    counts = [sum(1 for it in since if it // span == at) for at in range(max(since) // span + 1)]
    seconds = f"{span // 10**9}.{span % 10**9:09}".rstrip("0").rstrip(".")
    # Rounded up, so that none has more.
    yield f"packets a second, by spans of {seconds} s: {steps(max(counts), span, 10**9)} at most"
    yield "".join(HEIGHTS[steps(count, max(counts), 8)] for count in counts)


def rounded(count, nanoseconds):
    """How many there are in a second, if there are so many in that time."""
    return int((decimal.Decimal(count * 10**9) / nanoseconds).quantize(decimal.Decimal(1), decimal.ROUND_HALF_UP))


def period(packets):
    """When the earliest and the latest packet came, and what came in a second between them."""
    times = [it.time for it in packets]
    since = max(times) - min(times)
    yield f"earliest packet: {utc(min(times))}"
    yield f"latest packet: {utc(max(times))}, {seconds_between(min(times), max(times))} s later"
    if since:
        tenths = rounded(10 * len(packets), since)
        bits = rounded(8 * sum(it.wire_len for it in packets), since)
        yield f"on average {tenths // 10}.{tenths % 10} packets and {bits} bits a second"


def lengths(packets):
    """The packets that were cut, and all bytes, if not all were captured."""
    wire, captured = sum(it.wire_len for it in packets), sum(len(it.data) for it in packets)
    if any(it.cut for it in packets) or wire != captured:
        yield from list(table(packets, "captured in part", [("cut", [it for it in packets if it.cut])]))[:-1]
        yield f"bytes on the wire: {wire}, captured: {captured}"
        yield ""


def offload(packets):
    """That one sender's checksums are mostly bad, and no other's are."""
    senders = by(
        [it for it in packets if it.check in ("good", "bad")], lambda it: it.talk.split(" > ")[0]
    )
    counts = [(sender, sum(it.check == "bad" for it in sent), len(sent)) for sender, sent in senders]
    found = [it for it in counts if it[1]]
    if len(found) == 1:
        ((sender, bad, verified),) = found
        if 2 * bad > verified:
            yield (
                f"checksums: {bad} of {verified} of {sender} are bad, and none of others: "
                "probably captured on that host before its network card filled them in "
                "(--no-checksums)"
            )


PROTOCOLS = {number: name for name, number in OVER_IP.items()}
FLOW_TITLES = " packets>        bytes>  <packets        <bytes       first        last    duration  TCP   conversation"


def carried(net):
    """The protocol after the extension headers that are there."""
    (header,) = net.values()
    if "protocol" in header:
        return header.get("auth", {}).get("next_header", header["protocol"])
    following = [next(iter(it.values())) for it in header["extensions"]]
    return (following[-1] if following else header)["next_header"]


def ends_of(it):
    """Where a packet goes from and to, with ports if its message or the one that it completes has some; none where it is refused and
    wasn't cut, and without an IP header."""
    net = it.members.get("net", {})
    if it.refused and not it.cut or not ("Ipv4" in net or "Ipv6" in net):
        return None
    (header,) = net.values()
    message = it.members
    if isinstance(it.members.get("fragment"), dict) and "Completes" in it.members["fragment"]:
        message = it.members["fragment"]["Completes"]
    transport = message.get("transport", {})
    ports = transport.get("Udp") or transport.get("Tcp") or message.get("sctp") or {}
    ends = ((header[end], ports.get(f"{end}_port")) for end in ("source", "destination"))
    return (*ends, carried(net), transport.get("Tcp"))


def state(segments):
    """How far a connection came, by the segments of each direction."""
    both = [it for way in segments for it in way]
    if any(it["rst"] for it in both):
        return "R"
    if all(any(it[flag] for it in way) for way in segments for flag in ("syn", "fin")):
        return "SF"
    return "S" if all(it["syn"] for it in both) else "open"


def greatest(packets):
    """The ten conversations with the most bytes, as `packets flows` lists them."""
    rows = {}
    for it in packets:
        found = ends_of(it)
        if found:
            source, destination, number, segment = found
            key = (frozenset((source, destination)), number)
            row = rows.setdefault(key, {"ends": (source, destination), "number": number, "ways": ([], []), "segments": ([], []), "times": []})
            way = 0 if row["ends"] == (source, destination) else 1
            row["ways"][way].append(it.wire_len)
            row["times"].append(it.time)
            if segment:
                row["segments"][way].append(segment)
    if not rows:
        return
    begin = min(min(row["times"]) for row in rows.values())
    listed = sorted(rows.values(), key=lambda row: -sum(map(sum, row["ways"])))
    yield FLOW_TITLES
    for row in listed[:10]:
        counts = " ".join(f"{len(way):>9} {sum(way):>13}" for way in row["ways"])
        first, last = min(row["times"]), max(row["times"])
        times = " ".join(f"{seconds_between(*it):>11}" for it in ((begin, first), (begin, last), (first, last)))
        tcp = state(row["segments"]) if any(row["segments"]) else ""
        ends = " > ".join(address if port is None else f"{address}.{port}" for address, port in row["ends"])
        yield f"{counts} {times}  {tcp:<4}  {ends} {PROTOCOLS[row['number']]}"
    if len(listed) > 10:
        yield f"and {len(listed) - 10} more"
    yield ""
    yield f"first and last are seconds since {utc(begin)}"
    yield ""


def summary(packets, still_open):
    order = LINKS + tuple(sorted(OVER_IP, key=OVER_IP.get))
    assert all(kind in order for it in packets for kind in it.kinds)
    kinds = [(kind, [it for it in packets if kind in it.kinds]) for kind in order]
    yield from table(packets, "protocol", [("all packets", packets), *kinds])
    yield from lengths(packets)
    yield from table(packets, "refused because", by(packets, lambda it: it.refused))
    checked = [(kind, [it for it in packets if it.check == kind]) for kind in VERDICTS]
    if any(chosen for _, chosen in checked):
        *lines, _ = table(packets, "checksum", checked)
        yield from [*lines, *offload(packets), ""]
    fragments = [it for it in packets if it.outcome]
    if fragments:
        named = {"completing a message": "completes", "refused": "refused"}
        rows = [(name, [it for it in fragments if it.outcome == outcome]) for name, outcome in named.items()]
        *lines, _ = table(packets, "fragments", [("all fragments", fragments), *rows])
        yield from [*lines, f"messages open at the end: {still_open}", ""]
    yield from greatest(packets)
    yield from sizes(packets)
    yield from period(packets)
    yield from rate(packets)


def met(packets):
    """The numbers of the packets that meet a condition: lines are cut to five columns."""
    for word, holds in CONDITIONS.items():
        numbers = [f"{it.number:5}" for it in packets if holds(it)]
        yield ["show", "--width", "5", "--only", word], numbers


def outputs(packets, link_type, still_open):
    """What three command lines write, by their words, and of fragments those of conditions."""
    yield ["show"], shown(packets)
    yield ["json", "--payload"], objects(packets, link_type)
    yield ["summary"], summary(packets, still_open)
    if any(it.time % 1000 for it in packets):
        for form in ("delta", "epoch", "utc"):
            yield ["show", "--time", form], shown(packets, form)
    if any(it.outcome or it.cut for it in packets):
        yield from met(packets)
