"""What is wrong with a frame, after the standards: the first layer that breaks, and at which byte of the frame it begins.

Written after IEEE 802.3, 802.1Q (clause 9) and 802.1AE (clause 9), libpcap's page on LINKTYPE_LINUX_SLL, and RFC 768, 791,
792, 826, 4302, 4443, 8200 and 9293. Layers are named as `Layer` names them; a fault of a header's content has no offset.
"""

VLAN = (0x8100, 0x88A8, 0x9100)
MACSEC = 0x88E5
RAW_EXTENSIONS = (0, 43, 60)
NO_ETHER_TYPE = (770, 778, 803, 824)


class Fault(Exception):
    """The layer, the offset at which it begins, the bytes that it needs and those that are there."""


def number(data, at, size=2):
    return int.from_bytes(data[at : at + size], "big")


def need(data, layer, at, size, end):
    if end - at < size:
        raise Fault(layer, at, size, end - at)


def content(layer):
    raise Fault(layer, None, None, None)


def check_transport(data, protocol, at, end):
    here = end - at
    if protocol == 17:
        need(data, "UdpHeader", at, 8, end)
        length = number(data, at + 4)
        need(data, "UdpPayload", at, length, end)
        if 0 < length < 8:
            raise Fault("UdpHeader", at, 8, length)
    elif protocol == 6:
        need(data, "TcpHeader", at, 20, end)
        words = data[at + 12] >> 4
        if words < 5:
            content("Tcp")
        need(data, "TcpHeader", at, 4 * words, end)
    elif protocol == 1:
        need(data, "Icmpv4", at, 8, end)
        if data[at] in (13, 14) and data[at + 1] == 0 and here != 20:
            # RFC 792: a timestamp message has 20 bytes.
            raise Fault({13: "Icmpv4Timestamp", 14: "Icmpv4TimestampReply"}[data[at]], at, 20, here)
    elif protocol == 58:
        need(data, "Icmpv6", at, 8, end)


def check_auth(data, at, end, layer):
    need(data, "IpAuthHeader", at, 12, end)
    if data[at + 1] == 0:
        content(layer)
    need(data, "IpAuthHeader", at, 4 * (data[at + 1] + 2), end)
    return data[at], at + 4 * (data[at + 1] + 2)


def check_ipv4(data, at, end):
    need(data, "Ipv4Header", at, 20, end)
    size = 4 * (data[at] & 15)
    if data[at] >> 4 != 4 or size < 20:
        content("Ipv4")
    need(data, "Ipv4Header", at, size, end)
    total = number(data, at + 2)
    if total < size:
        raise Fault("Ipv4Packet", at, size, total)
    need(data, "Ipv4Packet", at, total, end)
    protocol, body, end = data[at + 9], at + size, at + total
    if protocol == 51:
        protocol, body = check_auth(data, body, end, "Ipv4Exts")
    if not number(data, at + 6) & 0x3FFF:
        check_transport(data, protocol, body, end)


def check_ipv6(data, at, end):
    need(data, "Ipv6Header", at, 40, end)
    if data[at] >> 4 != 6:
        content("Ipv6")
    length = number(data, at + 4)
    if length:
        need(data, "Ipv6Packet", at, 40 + length, end)
        end = at + 40 + length
    protocol, at, cut, first = data[at + 6], at + 40, False, True
    while True:
        if protocol == 0 and not first:
            content("Ipv6Exts")
        if protocol in RAW_EXTENSIONS:
            need(data, "Ipv6ExtHeader", at, 8, end)
            size = 8 * (data[at + 1] + 1)
            need(data, "Ipv6ExtHeader", at, size, end)
            protocol, at = data[at], at + size
        elif protocol == 44:
            need(data, "Ipv6FragHeader", at, 8, end)
            cut |= bool(number(data, at + 2) & 0xFFF9)
            protocol, at = data[at], at + 8
        elif protocol == 51:
            protocol, at = check_auth(data, at, end, "Ipv6Exts")
        else:
            break
        first = False
    if not cut:
        check_transport(data, protocol, at, end)


def check_arp(data, at, end):
    need(data, "Arp", at, 8, end)
    need(data, "Arp", at, 8 + 2 * data[at + 4] + 2 * data[at + 5], end)


def check_macsec(data, at, end):
    """Returns the ether type of what is protected, or None, and where that begins and ends."""
    need(data, "MacsecHeader", at, 6, end)
    flags, short = data[at], data[at + 1] & 63
    is_plain = not flags & 0x0C
    if flags & 0x80 or (is_plain and short == 1):
        content("Macsec")
    size = 6 + 8 * bool(flags & 0x20) + 2 * is_plain
    need(data, "MacsecHeader", at, size, end)
    if short:
        # The ether type is part of what the short length counts.
        whole = size + short - 2 * is_plain
        need(data, "MacsecPacket", at, whole, end)
        end = at + whole
    return (number(data, at + size - 2) if is_plain else None), at + size, end


def check(kind, data):
    """Raises the first fault of an Ethernet II frame (kind E) or a Linux cooked capture (kind L)."""
    at, end = (14 if kind == "E" else 16), len(data)
    need(data, "Ethernet2Header" if kind == "E" else "LinuxSllHeader", 0, at, end)
    ether_type = number(data, at - 2)
    if kind == "L":
        if number(data, 0) > 4:
            content("LinuxSll")
        # Of these hardware types, and below 1536, the protocol is no ether type.
        if number(data, 2) in NO_ETHER_TYPE or ether_type < 1536:
            return
    for _ in range(3):
        if ether_type in VLAN:
            need(data, "VlanHeader", at, 4, end)
            ether_type, at = number(data, at + 2), at + 4
        elif ether_type == MACSEC:
            ether_type, at, end = check_macsec(data, at, end)
        else:
            break
    if ether_type in VLAN or ether_type in (MACSEC, None):
        return
    {0x0800: check_ipv4, 0x86DD: check_ipv6, 0x0806: check_arp}.get(ether_type, lambda *_: None)(data, at, end)


def fault_of(kind, data):
    """Returns the first fault, or None."""
    try:
        check(kind, data)
    except Fault as fault:
        return fault.args
    return None
