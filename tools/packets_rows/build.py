"""Packets of scapy, with the facts that hold of all of a kind."""

import dataclasses
import socket
import struct

import fields
from expected import Packet
from scapy.layers.inet import IP, TCP, UDP
from scapy.layers.inet6 import IPv6
from scapy.layers.l2 import Ether
from scapy.utils import checksum

A_MAC, B_MAC = "02:00:00:00:00:01", "02:00:00:00:00:02"
A4, B4 = "10.0.0.1", "10.0.0.2"
A6, B6 = "2001:db8::1", "2001:db8::2"
IPV4, ARP_TYPE, IPV6 = 0x0800, 0x0806, 0x86DD


def frame(ether_type, data):
    return bytes(Ether(src=A_MAC, dst=B_MAC, type=ether_type)) + bytes(data)


def link(ether_type):
    return {"Ethernet2": {"source": A_MAC, "destination": B_MAC, "ether_type": ether_type}}


def v4(protocol, message, options=b"", **known):
    """An IPv4 packet, its header read again."""
    ihl = 5 + len(options) // 4
    header = IP(src=A4, dst=B4, proto=protocol, ihl=ihl, len=4 * ihl + len(message), chksum=0)
    header = IP(bytes(header / b"")[:20])
    for name, value in known.items():
        setattr(header, name, value)
    plain = bytes(header)[:20] + options
    plain = plain[:10] + struct.pack("!H", checksum(plain)) + plain[12:]
    return IP(plain + message)


def v6(next_header, message, **known):
    known = {"src": A6, "dst": B6, "plen": len(message)} | known
    return IPv6(bytes(IPv6(nh=next_header, **known) / message))


def sealed(protocol, message, at, source=A4, target=B4):
    """The message with its checksum at an offset, over a pseudo header too, but for ICMP over IPv4."""
    family = socket.AF_INET6 if ":" in source else socket.AF_INET
    ends = socket.inet_pton(family, source) + socket.inet_pton(family, target)
    summed = message[:at] + b"\0\0" + message[at + 2 :]
    pseudo = b"" if protocol == 1 else ends + struct.pack("!II", len(message), protocol)
    return message[:at] + struct.pack("!H", checksum(pseudo + summed)) + message[at + 2 :]


def udp(payload, source=A4, target=B4, ports=(53, 4000), **known):
    known = {"len": 8 + len(payload), "chksum": 0} | known
    plain = bytes(UDP(sport=ports[0], dport=ports[1], **known)) + payload
    return sealed(17, plain, 6, source, target)


def tcp(payload, source=A4, target=B4, options=b"", **known):
    known = {"sport": 443, "dport": 51234, "dataofs": 5 + len(options) // 4, "chksum": 0} | known
    return sealed(6, bytes(TCP(**known)) + options + payload, 16, source, target)


def icmp(kind, code, rest, source=None, target=B6):
    """An ICMP message, over IPv6 where a source is given."""
    plain = bytes([kind, code, 0, 0]) + rest
    return sealed(58, plain, 2, source, target) if source else sealed(1, plain, 2)


def ip_packet(
    ip, line, kinds, check, net=None, transport=None, payload=b"", exts=(), tags=b"", **known
):
    """An IP packet in an Ethernet frame, after tags."""
    is_v4 = ip.version == 4
    ether_type = IPV4 if is_v4 else IPV6
    outer = int.from_bytes(tags[:2], "big") if tags else ether_type
    data = frame(outer, tags[2:] + (struct.pack("!H", ether_type) if tags else b"") + bytes(ip))
    net = net or (fields.ipv4(ip) if is_v4 else fields.ipv6(ip))
    fragment = known.pop("fragment", None)
    other = known.pop("other", None)
    members = fields.members(link(outer), list(exts), net, transport, payload, fragment, other)
    kinds = ("Ethernet", *known.pop("tag_kinds", ()), "IPv4" if is_v4 else "IPv6", *kinds)
    talk = f"{ip.src} > {ip.dst}"
    return Packet(data, line, members, kinds, check=check, talk=talk, **known)


@dataclasses.dataclass
class There:
    """The headers that are there of a frame that is refused."""

    line: str = ""
    members: dict = dataclasses.field(default_factory=dict)
    kinds: tuple = ("Ethernet",)
    talk: str = None


def link_there(outer, name, exts=(), tags="", kinds=()):
    """The Ethernet header of this ether type, and tags, before what has this name."""
    members = {"link": link(outer), "link_exts": list(exts)}
    return There(f"{tags}{A_MAC} > {B_MAC} {name}", members, ("Ethernet", *kinds))


def ip_there(ip, words, kind, ports=("", ""), transport=None, net=None):
    """An IP header after an Ethernet header, and words of its message."""
    is_v4 = ip.version == 4
    members = {"link": link(IPV4 if is_v4 else IPV6), "link_exts": []}
    members |= {"net": net or (fields.ipv4(ip) if is_v4 else fields.ipv6(ip))}
    members |= {"transport": transport} if transport else {}
    kinds = ("Ethernet", "IPv4" if is_v4 else "IPv6", kind)
    line = f"{ip.src}{ports[0]} > {ip.dst}{ports[1]} {words}"
    return There(line, members, kinds, f"{ip.src} > {ip.dst}")


def refused(data, line, error, reason, there=There()):
    """A frame that is refused, and the headers that are there."""
    gap = "  " if there.line else ""
    members = there.members | error
    return Packet(data, f"{there.line}{gap}refused: {line}", members, there.kinds, refused=reason, talk=there.talk)
