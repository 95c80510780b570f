"""The layers of a packet. Written by tools/bindings."""

from dataclasses import dataclass
from ipaddress import IPv4Address, IPv6Address

from . import _raw
from ._lazy import Lazy, reads_struct


@reads_struct(_raw.EpLink)
@dataclass(frozen=True)
class Link(Lazy):
    """A link header. The fields of other kinds are 0."""

    kind: int  # 0 none, 1 Ethernet II, 2 a Linux cooked capture.
    protocol: int  # The ether type; in a cooked capture the protocol's number, whatever its kind.
    destination: bytes  # Of Ethernet II.
    source: bytes  # Of Ethernet II.
    packet_type: int  # Of a cooked capture: 0 to us, 1 broadcast, 2 multicast, 3 to others, 4 from us.
    hardware_type: int  # Of a cooked capture: the hardware type (ARPHRD).
    address_len: int  # Of a cooked capture: how many bytes of the address are the sender's, as it states it.
    address: bytes  # Of a cooked capture: the sender's address, and bytes without meaning after it.


@reads_struct(_raw.EpTag)
@dataclass(frozen=True)
class Tag(Lazy):
    """A tag between link header and packet. The fields of other kinds are 0."""

    header: bytes  # Where the tag itself is.
    kind: int  # 0 none, 1 VLAN, 2 MACsec.
    ether_type: int  # The ether type of what follows, 0 where a changed or encrypted MACsec payload follows.
    vlan_id: int  # Of VLAN: the identifier.
    priority: int  # Of VLAN: the priority code point.
    drop_eligible: bool  # Of VLAN: whether the frame may be dropped first.
    end_station: bool  # Of MACsec: bit ES.
    single_copy_broadcast: bool  # Of MACsec: bit SCB.
    encrypted: bool  # Of MACsec: bit E.
    changed: bool  # Of MACsec: bit C.
    has_channel: bool  # Of MACsec: whether a channel identifier is there.
    association: int  # Of MACsec: the association number.
    short_len: int  # Of MACsec: the short length.
    packet_number: int  # Of MACsec: the packet number.
    channel: int  # Of MACsec: the secure channel identifier.


@reads_struct(_raw.EpArp)
@dataclass(frozen=True)
class Arp(Lazy):
    """An ARP packet (RFC 826)."""

    packet: bytes  # The packet.
    sender_hardware: bytes  # The sender's hardware address.
    sender_protocol: bytes  # The sender's protocol address.
    target_hardware: bytes  # The target's hardware address.
    target_protocol: bytes  # The target's protocol address.
    hardware_type: int  # The kind of hardware address.
    protocol_type: int  # The kind of protocol address, an ether type.
    operation: int  # 1 request, 2 reply.


@reads_struct(_raw.EpIpv4)
@dataclass(frozen=True)
class Ipv4(Lazy):
    """An IPv4 packet (RFC 791). Its options are the last bytes of its header."""

    header: bytes  # The header, options included.
    extensions: bytes  # The authentication header.
    payload: bytes  # What follows it, without padding.
    source: IPv4Address  # The source address.
    destination: IPv4Address  # The destination address.
    total_len: int  # The length of header and payload, as the header states it.
    identification: int  # The identification, which the fragments of one datagram share.
    fragment_offset: int  # The offset of the payload in the datagram, in units of 8 bytes.
    header_checksum: int  # The header checksum, as the header states it.
    dscp: int  # Differentiated services code point.
    ecn: int  # Explicit congestion notification.
    time_to_live: int  # Hops that are left.
    protocol: int  # The number of what follows the header.
    payload_number: int  # The number of the payload, after an authentication header.
    dont_fragment: bool  # Whether the packet may not be fragmented.
    more_fragments: bool  # Whether other fragments follow.
    is_part: bool  # Whether the payload is a fragment.


@reads_struct(_raw.EpIpv6)
@dataclass(frozen=True)
class Ipv6(Lazy):
    """An IPv6 packet (RFC 8200)."""

    header: bytes  # The base header.
    extensions: bytes  # All extension headers.
    payload: bytes  # What follows them, without padding.
    source: IPv6Address  # The source address.
    destination: IPv6Address  # The destination address.
    flow_label: int  # The flow label.
    identification: int  # The identification, which the fragments of one datagram share, by the first fragment header.
    payload_length: int  # The payload length, as the header states it.
    fragment_offset: int  # The offset of the payload in the datagram, in units of 8 bytes, by the first fragment header.
    traffic_class: int  # The traffic class.
    next_header: int  # The number of what follows the base header.
    hop_limit: int  # Hops that are left.
    payload_number: int  # The number of the payload, after the extension headers.
    has_fragment_header: bool  # Whether there is a fragment header.
    more_fragments: bool  # Whether other fragments follow, by the first fragment header.
    is_part: bool  # Whether the payload is a fragment.


@reads_struct(_raw.EpUdp)
@dataclass(frozen=True)
class Udp(Lazy):
    """A UDP datagram (RFC 768)."""

    header: bytes  # The header.
    payload: bytes  # What follows it.
    source_port: int  # The source port.
    destination_port: int  # The destination port.
    stated_len: int  # The length of header and payload, as the header states it; 0 in a jumbogram.
    checksum: int  # The checksum, as the header states it; 0 where none was sent.


@reads_struct(_raw.EpTcp)
@dataclass(frozen=True)
class Tcp(Lazy):
    """A TCP segment (RFC 9293). Its options follow the first 20 bytes of the header."""

    header: bytes  # The header, options included.
    payload: bytes  # What follows it.
    sequence_number: int  # The sequence number.
    acknowledgment_number: int  # The acknowledgment number.
    source_port: int  # The source port.
    destination_port: int  # The destination port.
    window_size: int  # The window.
    checksum: int  # The checksum, as the header states it.
    urgent_pointer: int  # The urgent pointer.
    ns: bool  # Flag NS (RFC 3540).
    fin: bool  # Flag FIN.
    syn: bool  # Flag SYN.
    rst: bool  # Flag RST.
    psh: bool  # Flag PSH.
    ack: bool  # Flag ACK.
    urg: bool  # Flag URG.
    ece: bool  # Flag ECE.
    cwr: bool  # Flag CWR.


@reads_struct(_raw.EpIcmp)
@dataclass(frozen=True)
class Icmp(Lazy):
    """An ICMP message of either version (RFC 792; RFC 4443)."""

    header: bytes  # The header: 20 bytes in ICMPv4's timestamp messages, else 8.
    payload: bytes  # What follows it.
    checksum: int  # The checksum, as the header states it.
    icmp_type: int  # The type.
    code: int  # The code.
    rest: bytes  # Bytes 4 to 7, whatever the type says of them.
