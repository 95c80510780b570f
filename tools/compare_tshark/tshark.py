"""What tshark 4.0 dissects of a capture: the layers of each packet, the outer one first."""

import json
import subprocess

OPTIONS = (
    "ip.check_checksum:FALSE",
    "tcp.check_checksum:TRUE",
    "udp.check_checksum:TRUE",
    "udp.ignore_ipv6_zero_checksum:TRUE",
    "ipv6.exthdr_under_root_protocol_tree:TRUE",
    "tcp.desegment_tcp_streams:FALSE",
    "tcp.analyze_sequence_numbers:FALSE",
    "tcp.relative_sequence_numbers:FALSE",
    "eth.fcs:Never",
)
LINKS = ("eth", "sll", "null", "raw")
TAGS = ("vlan", "ieee8021ad", "macsec")
EXTENSIONS = {
    "ipv6.hopopts": "HopByHop",
    "ipv6.dstopts": "DestinationOptions",
    "ipv6.routing": "Routing",
    "ipv6.fraghdr": "Fragment",
    "ah": "Authentication",
}
MESSAGES = ("udp", "tcp", "icmp", "icmpv6")
STATUS = {"0": "Bad", "1": "Good", "2": "unverified", "3": "None"}


class Layer:
    """A layer: its fields by their names, of a field that comes twice the first."""

    def __init__(self, name, pairs):
        self.name, self.fields = name, {}
        self.take(pairs)

    def take(self, pairs):
        for name, value in pairs if isinstance(pairs, list) else []:
            if isinstance(value, list) and (not value or isinstance(value[0], tuple)):
                self.take(value)
            else:
                self.fields.setdefault(name, []).append(value)

    def get(self, name):
        return self.fields.get(name, [None])[0]

    def all(self, name):
        return self.fields.get(name, [])

    def numbers(self, *names):
        """The numbers of fields by the ends of their names, None for each that isn't there."""
        found = [self.get(f"{self.name}.{name}") for name in names]
        return [None if text is None else int({"True": "1", "False": "0"}.get(text, text), 0) for text in found]

    def length(self):
        """The bytes of a header by its own fields; None where it ends before they do, or they are wrong."""
        match self.name:
            case "vlan" | "ieee8021ad":
                return 4
            case "macsec":
                bits = self.numbers("TCI.SC", "TCI.E", "TCI.C")
                return None if None in bits else macsec_length(bits[0], bits[1] or bits[2])
            case "ip" | "tcp":
                (length,) = self.numbers("hdr_len")
                return length if length and length >= 20 else None
            case "ipv6":
                return 40
            case "arp":
                sizes = self.numbers("hw.size", "proto.size")
                return None if None in sizes else 8 + 2 * sum(sizes)
            case "ah":
                (words,) = self.numbers("length")
                return None if words is None else 4 * (words + 2)
            case "icmp":
                kind, code = self.numbers("type", "code")
                return 20 if kind in TIMESTAMPS and code == 0 else 8
            case "udp" | "icmpv6" | "ipv6.fraghdr":
                return 8
        return self.numbers("len_oct")[0]


# Bytes of the header of a link; an Ethernet II header that is made for another link isn't in the packet.
LINK_LENGTHS = {"Ethernet": 14, "Ip": 0, "Null": 4, "Loop": 4, "Sll": 16, "Sll2": 20}
TIMESTAMPS = (13, 14)


def macsec_length(has_sci, is_changed):
    """Bytes of a MACsec header (IEEE 802.1AE, clause 9), with the ether type after it where it has one."""
    return 6 + 8 * has_sci + (0 if is_changed else 2)


class Dissected:
    """A packet as tshark dissects it."""

    def __init__(self, pairs):
        layers = [Layer(name, held) for name, held in pairs]
        self.frame = layers[0]
        self.names = [it.name for it in layers]
        self.is_malformed = any(it.name.startswith("_ws.malformed") for it in layers)
        self.link = self.net = self.message = self.joined = self.waits = None
        self.tags, self.extensions = [], []
        for it in layers[1:]:
            if it.name in LINKS and self.link is None:
                self.link = it
            elif it.name in TAGS and self.net is None:
                self.tags += two_tags(it) if it.get("ieee8021ad.cvid") else [it]
            elif it.name in ("ip", "ipv6", "arp") and self.net is None:
                self.net = it
                if it.name == "ip" and it.get("ip.fragment.count"):
                    self.joined = it
                self.waits = it.get("ip.reassembled_in")
            elif it.name in EXTENSIONS and self.net is not None:
                self.extensions.append(it)
            elif it.name == "ipv6.fragments":
                self.joined = it
            elif it.name == "ipv6.reassembled.in":
                self.waits = self.waits or pairs_value(pairs, it.name)
            elif it.name in MESSAGES and self.net is not None:
                self.message = it
                break
            elif self.net is not None:
                break
            elif it.name not in LINKS:
                break

    def bytes_joined(self):
        data = self.joined.get("ip.reassembled.data") or self.joined.get("ipv6.reassembled.data")
        return bytes.fromhex(data.replace(":", "")) if data else None


def two_tags(layer):
    """Two service tags, which tshark shows as one layer."""
    for at, kind in enumerate(("svid", "cvid")):
        fields = {name: layer.all(f"ieee8021ad.{name}")[at] for name in ("priority", "dei")}
        fields |= {"id": layer.get(f"ieee8021ad.{kind}")}
        ether_type = layer.get("ieee8021ah.etype") if at else "0x88a8"
        yield Layer(layer.name, [*((f"ieee8021ad.{name}", value) for name, value in fields.items()), ("ieee8021ah.etype", ether_type)])


def pairs_value(pairs, name):
    return next(value for key, value in pairs if key == name)


def dissect(path):
    """Yields each packet."""
    words = ["tshark", "-n", "-2", "-r", path, "-T", "json"]
    for option in OPTIONS:
        words += ["-o", option]
    run = subprocess.run(words, stdout=subprocess.PIPE, stderr=subprocess.PIPE, check=False)
    if run.returncode:
        raise SystemExit(f"tshark: status {run.returncode}: {run.stderr.decode().strip()}")
    for packet in json.loads(run.stdout or "[]", object_pairs_hook=list):
        yield Dissected(dict(dict(packet)["_source"])["layers"])


def version():
    said = subprocess.run(["tshark", "--version"], capture_output=True, text=True, check=True).stdout
    return said.split("\n", 1)[0]
