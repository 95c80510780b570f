"""Captures of hosts whose checksums a network card fills in, or not: reports distinguish them."""

import fields
from build import A4, A6, B4, B6, ip_packet, udp, v4, v6

TEXTS = {"good": "good", "bad": "bad checksum", "none": "no checksum"}


def datagrams(*sent):
    """UDP datagrams by their ends and their verdicts."""
    for source, target, check in sent:
        message = udp(b"abc", source, target)
        if check == "bad":
            message = message[:8] + b"abd"
        if check == "none":
            message = message[:6] + b"\0\0" + message[8:]
        ip = (v6 if ":" in source else v4)(17, message, src=source, dst=target)
        line = f"{source}.53 > {target}.4000 UDP len 3  {TEXTS[check]}"
        known = {"transport": fields.udp(message), "payload": message[8:]}
        yield ip_packet(ip, line, ("UDP",), check, **known)


def offload():
    """Two of three of one host are bad, beside two that have none."""
    first = [(A4, B4, "bad"), (B4, A4, "good"), (A4, B4, "none"), (A4, B4, "good")]
    return datagrams(*first, (A4, B4, "bad"), (A4, B4, "none"))


def offload_ipv6():
    return datagrams((B6, A6, "good"), (A6, B6, "bad"))


def half_bad():
    return datagrams((A4, B4, "bad"), (A4, B4, "good"))


def two_hosts_bad():
    return datagrams((A4, B4, "bad"), (B4, A4, "bad"), (A4, B4, "bad"))
