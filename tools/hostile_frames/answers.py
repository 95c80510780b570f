#!/usr/bin/env python3
"""Answers the lines on standard input as docs/LINES.md says.

Written after that page, IEEE 802.1Q (clause 9), 802.1AE (clause 9) and RFC 768, 791, 792, 826, 1071, 4302, 4443, 8200 and 9293,
and not after these crates. It is plain and not fast: each incomplete message is an array of its bytes, and one of which
of these have come.

usage: tools/hostile_frames/answers.py <LINES >ANSWERS
"""

import re
import sys

LONGEST_LINE = 200_000
LONGEST_MESSAGE = 65_535
FRAME = re.compile(rb"frame ([0-9]{1,10}) ([0-9A-Fa-f]+)")
FORGET = re.compile(rb"forget ([0-9]{1,20})")

VLAN = (b"\x81\x00", b"\x88\xa8", b"\x91\x00")
MACSEC, IPV4, IPV6, ARP = b"\x88\xe5", b"\x08\x00", b"\x86\xdd", b"\x08\x06"
MOST_TAGS = 3
HOP_BY_HOP, ICMP, TCP, UDP, ROUTING, FRAGMENT, AUTHENTICATION, ICMPV6, DESTINATION = 0, 1, 6, 17, 43, 44, 51, 58, 60
EXTENSIONS = (HOP_BY_HOP, ROUTING, FRAGMENT, AUTHENTICATION, DESTINATION)


class Refused(Exception):
    """A header that breaks its format, or that isn't whole."""


class Other(Exception):
    """Nothing that is read further."""


def number(data):
    return int.from_bytes(data, "big")


def split(data, size):
    """Cuts so many bytes off the start."""
    if len(data) < size:
        raise Refused
    return data[:size], data[size:]


def after_tags(frame):
    """Returns the identifiers of the VLAN tags, the last ether type, and what follows it."""
    link, rest = split(frame, 14)
    ether_type, identifiers, tags = link[12:], (), 0
    while ether_type in VLAN or ether_type == MACSEC:
        if tags == MOST_TAGS:
            raise Other
        tags += 1
        if ether_type == MACSEC:
            ether_type, rest = after_macsec(rest)
        else:
            tag, rest = split(rest, 4)
            identifiers += (number(tag[:2]) % 4096,)
            ether_type = tag[2:]
    return identifiers, ether_type, rest


def after_macsec(data):
    tag, rest = split(data, 6)
    version, has_identifier, changed = tag[0] & 0x80, tag[0] & 0x20, tag[0] & 0x0C
    short_length = tag[1] % 64
    # What isn't changed begins with an ether type, of two bytes.
    if version or (short_length == 1 and not changed):
        raise Refused
    if has_identifier:
        _, rest = split(rest, 8)
    if short_length:
        rest, _ = split(rest, short_length)
    if changed:
        raise Other
    return split(rest, 2)


def check_arp(packet):
    head, rest = split(packet, 8)
    split(rest, 2 * head[4] + 2 * head[5])


def after_authentication(data):
    """Returns the next number and what follows."""
    head, _ = split(data, 12)
    if head[1] == 0:
        raise Refused
    return head[0], split(data, 4 * head[1] + 8)[1]


def ipv4(packet):
    """Returns version and addresses, the number of the payload, the payload, and its place: identification, offset, more."""
    head, _ = split(packet, 20)
    size, total = 4 * (head[0] % 16), number(head[2:4])
    if head[0] // 16 != 4 or size < 20 or total < size:
        raise Refused
    packet, _ = split(packet, total)
    protocol, payload = head[9], packet[size:]
    if protocol == AUTHENTICATION:
        protocol, payload = after_authentication(payload)
    place = number(head[6:8])
    return (4, head[12:20]), protocol, payload, (head[4:6], place % 8192, place & 0x2000 != 0)


def ipv6(packet):
    """The same. The place is that of the first fragment header."""
    head, payload = split(packet, 40)
    if head[0] // 16 != 6:
        raise Refused
    length = number(head[4:6])
    if length:
        payload, _ = split(payload, length)
    following, payload, is_first, fragments = head[6], memoryview(payload), True, []
    while following in EXTENSIONS:
        if following == HOP_BY_HOP and not is_first:
            raise Refused
        if following == AUTHENTICATION:
            following, payload = after_authentication(payload)
        else:
            header, _ = split(payload, 8)
            if following == FRAGMENT:
                place = number(header[2:4])
                fragments.append((bytes(header[4:]), place // 8, place % 2 == 1))
                payload = payload[8:]
            else:
                _, payload = split(payload, 8 * header[1] + 8)
            following = header[0]
        is_first = False
    place = fragments[0] if fragments else (b"", 0, False)
    if not is_part(place) and any(map(is_part, fragments)):
        raise Other
    return (6, head[8:40]), following, bytes(payload), place


def is_part(place):
    return place[1] != 0 or place[2]


def check_message(protocol, message):
    """Refuses what is no message of its protocol."""
    if protocol == UDP:
        length = number(split(message, 8)[0][4:6])
        if length and not 8 <= length <= len(message):
            raise Refused
    elif protocol == TCP:
        words = split(message, 20)[0][12] // 16
        if words < 5:
            raise Refused
        split(message, 4 * words)
    elif protocol in (ICMP, ICMPV6):
        kind = split(message, 8)[0]
        if protocol == ICMP and kind[:2] in (b"\x0d\0", b"\x0e\0") and len(message) != 20:
            raise Refused


def sums_to_ones(data):
    """Whether the 16-bit words sum to all ones. They are the digits of a number, which leaves the rest that their sum leaves."""
    return any(data) and number(data + bytes(len(data) % 2)) % 65535 == 0


def verdict(version, addresses, protocol, message):
    if protocol == UDP:
        if message[6:8] == b"\0\0":
            return "none"
        message = message[: number(message[4:6]) or len(message)]
    elif protocol not in (TCP, ICMP if version == 4 else ICMPV6):
        return "none"
    # That of IPv6. The words of IPv4's are the same, but for zeros and their order.
    pseudo = addresses + len(message).to_bytes(4, "big") + bytes([0, 0, 0, protocol])
    return "good" if sums_to_ones((b"" if protocol == ICMP else pseudo) + message) else "bad"


def message_line(sender, protocol, message):
    check_message(protocol, message)
    return f"message {protocol} {verdict(*sender, protocol, message)} {message.hex() or '-'}"


class Message:
    """What has come of a message: its bytes, which of them were there (1), the end that was named, and over IPv6 the fragments."""

    def __init__(self, version):
        self.text, self.there, self.end, self.line, self.parts = bytearray(), bytearray(), None, 0, [] if version == 6 else None

    def refusal(self, start, more, part):
        stop = start + len(part)
        if stop > LONGEST_MESSAGE:
            return "refused long"
        if more and len(part) % 8:
            return "refused unaligned"
        if self.end is not None and (stop > self.end or (stop != self.end and not more)):
            return "refused end"
        if self.parts is not None and (start, more, part) not in self.parts and 1 in self.there[start : stop if more else None]:
            return "refused overlap"
        return None

    def add(self, line, start, more, part):
        stop = start + len(part)
        for array in (self.text, self.there):
            array.extend(bytes(max(0, stop - len(array))))
        self.text[start:stop] = part
        self.there[start:stop] = b"\1" * len(part)
        self.line = line
        if self.parts is not None:
            self.parts.append((start, more, part))
        if not more:
            self.end = stop

    def is_complete(self):
        return self.end is not None and 0 not in self.there


class Answerer:
    """Answers lines in their order."""

    def __init__(self):
        self.line, self.messages = 0, {}

    def answer(self, line):
        self.line += 1
        if len(line) <= LONGEST_LINE:
            words = FRAME.fullmatch(line)
            if words and int(words[1]) < 2**32 and len(words[2]) % 2 == 0:
                try:
                    return self.of_frame(int(words[1]), bytes.fromhex(words[2].decode("ascii")))
                except Refused:
                    return "refused frame"
                except Other:
                    return "other"
            words = FORGET.fullmatch(line)
            if words and int(words[1]) < 2**64:
                kept = [(name, it) for name, it in self.messages.items() if it.line >= int(words[1])]
                self.messages = dict(kept)
                return "ok"
        return "bad line"

    def of_frame(self, channel, frame):
        identifiers, ether_type, packet = after_tags(frame)
        if ether_type == ARP:
            check_arp(packet)
        if ether_type not in (IPV4, IPV6):
            raise Other
        sender, protocol, payload, place = (ipv4 if ether_type == IPV4 else ipv6)(packet)
        if not is_part(place):
            return message_line(sender, protocol, payload)
        identification, offset, more = place
        return self.of_part((channel, identifiers, sender, identification, protocol), 8 * offset, more, payload)

    def of_part(self, name, start, more, part):
        message = self.messages.get(name) or Message(name[2][0])
        refusal = message.refusal(start, more, part)
        if refusal == "refused overlap":
            self.messages.pop(name, None)
        if refusal:
            return refusal
        message.add(self.line, start, more, part)
        self.messages[name] = message
        if not message.is_complete():
            return "wait"
        del self.messages[name]
        try:
            return message_line(name[2], name[4], bytes(message.text[: message.end]))
        except Refused:
            return "refused message"


def lines_of(text):
    lines = text.split(b"\n")
    return lines if lines[-1] else lines[:-1]


def answers(text):
    """The answers to a text, each ended by a line feed."""
    answerer = Answerer()
    return "".join(answerer.answer(line) + "\n" for line in lines_of(text)).encode("ascii")


if __name__ == "__main__":
    sys.stdout.buffer.write(answers(sys.stdin.buffer.read()))
