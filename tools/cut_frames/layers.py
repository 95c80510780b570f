"""The layers of a frame as far as they are there, as a text.

Written after IEEE 802.3, 802.1Q (clause 9) and 802.1AE (clause 9), RFC 768, 791, 792, 826, 4302, 4443, 8200 and 9293, and these
rules for frames that were cut:

- At most three tags are read. What follows a fourth one's ether type is payload.
- A length field that promises more than is there bounds nothing. Neither does a total length below IPv4's header, a payload
  length of 0 over IPv6, a short length of 0 in MACsec, and the length field of UDP.
- The first fault ends the reading. A message is read where no extension header has a fault, and where it is no fragment.

A text names the layers, then after ` | ` the layer with a fault and the byte of the frame at which that begins, or `content`
where its bytes are there and break its format, and then ` | cut` where bytes of an IP packet's payload are missing. A MACsec
header is `modified` where its payload was encrypted or changed, and `short` where bytes of it are missing.
"""

VLAN = (0x8100, 0x88A8, 0x9100)
MACSEC, IPV4, IPV6, ARP = 0x88E5, 0x0800, 0x86DD, 0x0806
MOST_TAGS = 3
ICMP, TCP, UDP, AUTHENTICATION, ICMPV6 = 1, 6, 17, 51, 58
HOP_BY_HOP, ROUTING, FRAGMENT, DESTINATION = 0, 43, 44, 60
WORDS = {HOP_BY_HOP: "hop", ROUTING: "route", FRAGMENT: "frag", DESTINATION: "dest", AUTHENTICATION: "auth"}
LAYERS = {
    HOP_BY_HOP: "Ipv6HopByHopHeader",
    ROUTING: "Ipv6RouteHeader",
    FRAGMENT: "Ipv6FragHeader",
    DESTINATION: "Ipv6DestOptionsHeader",
    AUTHENTICATION: "IpAuthHeader",
}


class Stop(Exception):
    """A fault: the layer, and where it begins or `content`."""


class Bytes:
    """Those of a frame from one byte up to another."""

    def __init__(self, frame, begin, end):
        self.frame, self.begin, self.end = frame, begin, end

    def number(self, at, size):
        return int.from_bytes(self.frame[self.begin + at : self.begin + at + size], "big")

    def need(self, layer, size):
        if self.end - self.begin < size:
            raise Stop(layer, self.begin)

    def after(self, size):
        return Bytes(self.frame, self.begin + size, self.end)

    def bounded(self, size):
        """Returns the first bytes, and whether some of them are missing."""
        if self.end - self.begin < size:
            return self, True
        return Bytes(self.frame, self.begin, self.begin + size), False


def content(layer, is_fault):
    if is_fault:
        raise Stop(layer, "content")


def vlan(data, words):
    data.need("VlanHeader", 4)
    words.append("vlan")
    return data.number(2, 2), data.after(4)


def macsec(data, words):
    """Returns the ether type of the payload, if it is named, and the payload."""
    data.need("MacsecHeader", 6)
    flags, short_length = data.number(0, 1), data.number(1, 1) & 0x3F
    version, has_identifier, is_modified = flags & 0x80, flags & 0x20, flags & 0x0C != 0
    content("MacsecHeader", version or (not is_modified and short_length == 1))
    begin = 14 if has_identifier else 6
    # What the short length counts begins here. It may be an ether type.
    head = begin if is_modified else begin + 2
    data.need("MacsecHeader", head)
    payload, is_short = data.after(begin), False
    if short_length:
        payload, is_short = payload.bounded(short_length)
    words.append(f"macsec{'-modified' if is_modified else ''}{'-short' if is_short else ''}")
    return (None, payload) if is_modified else (payload.number(0, 2), payload.after(2))


def authentication(data):
    """Returns the number of what follows the header, and that."""
    data.need("IpAuthHeader", 12)
    words = data.number(1, 1)
    content("IpAuthHeader", words == 0)
    data.need("IpAuthHeader", 4 * (words + 2))
    return data.number(0, 1), data.after(4 * (words + 2))


def message(protocol, data, words):
    if protocol == UDP:
        data.need("UdpHeader", 8)
        words.append("udp")
    elif protocol == TCP:
        data.need("TcpHeader", 20)
        size = data.number(12, 1) >> 4
        content("TcpHeader", size < 5)
        data.need("TcpHeader", 4 * size)
        words.append("tcp")
    elif protocol == ICMP:
        data.need("Icmpv4", 8)
        # A timestamp message and its reply have three times of four bytes, and nothing else.
        if data.number(0, 2) in (0x0D00, 0x0E00) and data.end - data.begin != 20:
            raise Stop("Icmpv4", data.begin)
        words.append("icmpv4")
    elif protocol == ICMPV6:
        data.need("Icmpv6", 8)
        words.append("icmpv6")


def ipv4(data, words, marks):
    data.need("Ipv4Header", 20)
    version, size = data.number(0, 1) >> 4, 4 * (data.number(0, 1) & 0x0F)
    content("Ipv4Header", version != 4 or size < 20)
    data.need("Ipv4Header", size)
    total, protocol, is_part = data.number(2, 2), data.number(9, 1), data.number(6, 2) & 0x3FFF
    words.append("ipv4")
    if total >= size:
        data, is_cut = data.bounded(total)
        marks += ["cut"] * is_cut
    payload = data.after(size)
    try:
        if protocol == AUTHENTICATION:
            protocol, payload = authentication(payload)
            words[-1] += "+auth"
    finally:
        words += ["fragment"] * bool(is_part)
    if not is_part:
        message(protocol, payload, words)


def ipv6(data, words, marks):
    data.need("Ipv6Header", 40)
    content("Ipv6Header", data.number(0, 1) >> 4 != 6)
    length, following = data.number(4, 2), data.number(6, 1)
    payload, is_part, is_first = data.after(40), False, True
    words.append("ipv6")
    if length:
        payload, is_cut = payload.bounded(length)
        marks += ["cut"] * is_cut
    try:
        while following in WORDS:
            layer = LAYERS[following]
            content(layer, following == HOP_BY_HOP and not is_first)
            if following == AUTHENTICATION:
                after = authentication(payload)
            else:
                payload.need(layer, 8)
                size = 8
                if following == FRAGMENT:
                    # 13 bits of an offset, two reserved ones, and a flag.
                    is_part = is_part or payload.number(2, 2) & 0xFFF9 != 0
                else:
                    size += 8 * payload.number(1, 1)
                payload.need(layer, size)
                after = payload.number(0, 1), payload.after(size)
            words[-1] += f"+{WORDS[following]}"
            (following, payload), is_first = after, False
    finally:
        words += ["fragment"] * is_part
    if not is_part:
        message(following, payload, words)


def arp(data, words, _):
    data.need("Arp", 8)
    data.need("Arp", 8 + 2 * data.number(4, 1) + 2 * data.number(5, 1))
    words.append("arp")


def layers(frame):
    """Returns the text of a frame of 14 bytes or more."""
    words, marks, stop = [], [], []
    ether_type, data = int.from_bytes(frame[12:14], "big"), Bytes(frame, 14, len(frame))
    try:
        while ether_type in (*VLAN, MACSEC) and len(words) < MOST_TAGS:
            ether_type, data = (macsec if ether_type == MACSEC else vlan)(data, words)
        if ether_type in (IPV4, IPV6, ARP):
            {IPV4: ipv4, IPV6: ipv6, ARP: arp}[ether_type](data, words, marks)
    except Stop as fault:
        stop = ["stop {} {}".format(*fault.args)]
    return " | ".join([" ".join(words) or "none", *stop, *marks])
