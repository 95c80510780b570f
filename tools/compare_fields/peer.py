"""What scapy reads of a frame, field by field."""

import scapy.contrib.macsec as macsec
from scapy.layers.inet import ICMP, IP, TCP, UDP
from scapy.layers.inet6 import (
    IPv6,
    IPv6ExtHdrDestOpt,
    IPv6ExtHdrFragment,
    IPv6ExtHdrHopByHop,
    IPv6ExtHdrRouting,
    IPv6ExtHdrSegmentRouting,
    _ICMPv6,
)
from scapy.layers.ipsec import AH
from scapy.layers.l2 import ARP, CookedLinux, Dot1AD, Dot1Q, Ether
from scapy.packet import Raw, bind_layers

# The ether type of a tag before another one, as 802.1Q's earlier drafts had it, is not among scapy's.
for below in (Ether, CookedLinux, Dot1Q, Dot1AD, macsec.MACsec):
    for name, number in (("type", 0x8100), ("type", 0x88A8), ("type", 0x9100), ("type", 0x88E5)):
        above = {0x8100: Dot1Q, 0x88A8: Dot1AD, 0x9100: Dot1Q, 0x88E5: macsec.MACsec}[number]
        bind_layers(below, above, **{"proto" if below is CookedLinux else name: number})


# Nor is what stands after such a tag.
for above, number in ((IP, 0x0800), (IPv6, 0x86DD), (ARP, 0x0806)):
    bind_layers(Dot1AD, above, type=number)


def raw(packet):
    """The bytes of a layer and of what it holds, without what stands after them."""
    return packet.do_build()


def address(text):
    return bytes(map(int, text.split("."))) if "." in text else bytes.fromhex(text.replace(":", ""))


def address6(layer, field):
    return layer.raw_packet_cache[8:24] if field == "src" else layer.raw_packet_cache[24:40]


def read(kind, frame):
    """Yields the layers, each as its name and fields."""
    for _, found in walk(kind, frame):
        yield found


def walk(kind, frame):
    """Yields scapy's layers, each with its name and fields, and last what stands after them."""
    layer = Ether(frame) if kind == "E" else CookedLinux(frame)
    while layer:
        found = fields_of(layer)
        if found is None:
            break
        yield layer, found
        if found[0] in ("udp", "tcp", "icmp"):
            # What stands in a message, as the packet that an ICMP error quotes, is its payload.
            yield None, ("rest", {"bytes": raw(layer)[header_len(layer) :]})
            return
        if isinstance(layer, macsec.MACsec) and found[1]["ether_type"] is not None and len(protected(layer)) > 1:
            layer = Ether(bytes(12) + protected(layer)).payload
        elif isinstance(layer, AH):
            layer = after_auth(layer)
        else:
            layer = layer.payload
    yield None, ("rest", {"bytes": raw(layer) if layer else b""})


def header_len(layer):
    """The length of a message's header: scapy takes some of what follows an ICMP header for fields."""
    if isinstance(layer, ICMP):
        return 20 if layer.type in (13, 14) else 8
    return 8 if isinstance(layer, (UDP, _ICMPv6)) else 4 * layer.dataofs


def protected(layer):
    """What a MACsec header protects, from its ether type on: scapy reads that after it has checked a key, if ever."""
    return raw(layer.payload)[: layer.SL or None]


def after_auth(layer):
    """What an authentication header names: scapy reads it where the header is the first one of IPv4 or IPv6 alone."""
    held = raw(layer.payload)
    if not held:
        return layer.payload
    kind = ICMP if layer.nh == 1 else IPv6ExtHdrDestOpt(nh=layer.nh).guess_payload_class(held)
    try:
        return kind(held)
    except Exception:  # What scapy can't read within a packet is bytes to it.
        return Raw(held)


def fields_of(it):
    own = it.raw_packet_cache or b""
    if isinstance(it, (TCP, UDP, ICMP, _ICMPv6)) and len(raw(it)) < (20 if isinstance(it, TCP) else 8):
        return None
    if isinstance(it, Ether):
        return "eth", {"source": address(it.src), "destination": address(it.dst), "ether_type": it.type}
    if isinstance(it, CookedLinux):
        return "sll", {
            "packet_type": it.pkttype,
            "arp_hrd_type": it.lladdrtype,
            "sender_address_valid_length": it.lladdrlen,
            "sender_address": it.src,
            "protocol": it.proto,
        }
    if isinstance(it, (Dot1Q, Dot1AD)):
        dei = it.id if "id" in it.fields else it.dei
        return "vlan", {"pcp": it.prio, "drop_eligible_indicator": dei, "vlan_id": it.vlan, "ether_type": it.type}
    if isinstance(it, macsec.MACsec):
        if "PN" not in it.fields or (it.SC and it.SCI is None):
            return None
        return "macsec", {
            "endstation_id": it.ES,
            "scb": it.SCB,
            "an": it.AN,
            "short_len": it.SL,
            "packet_nr": it.PN,
            "sci": int.from_bytes(raw(it.SCI), "big") if it.SC else None,
            "ether_type": int.from_bytes(protected(it)[:2], "big") if not it.E and not it.C else None,
            "E": it.E,
            "C": it.C,
        }
    if isinstance(it, ARP):
        found = {"hw_addr_type": it.hwtype, "proto_addr_type": it.ptype, "operation": it.op}
        for name, value in (
            ("sender_hw_addr", it.hwsrc),
            ("sender_protocol_addr", it.psrc),
            ("target_hw_addr", it.hwdst),
            ("target_protocol_addr", it.pdst),
        ):
            # scapy writes an address of 6 or 4 bytes as a text, and others are bytes.
            found[name] = address(value) if isinstance(value, str) and (":" in value or "." in value) else bytes(value) if value else b""
        return "arp", found
    if isinstance(it, IP):
        flags = int(it.flags)
        return "ip", {
            "dscp": it.tos >> 2,
            "ecn": it.tos & 3,
            "total_len": it.len,
            "identification": it.id,
            "dont_fragment": flags >> 1 & 1,
            "more_fragments": flags & 1,
            "fragment_offset": it.frag,
            "time_to_live": it.ttl,
            "protocol": it.proto,
            "header_checksum": it.chksum,
            "source": address(it.src),
            "destination": address(it.dst),
            "options": own[20 : 4 * it.ihl],
        }
    if isinstance(it, IPv6):
        return "ipv6", {
            "traffic_class": it.tc,
            "flow_label": it.fl,
            "payload_length": it.plen,
            "next_header": it.nh,
            "hop_limit": it.hlim,
            "source": address6(it, "src"),
            "destination": address6(it, "dst"),
        }
    if isinstance(it, IPv6ExtHdrFragment):
        return "fragment", {"next_header": it.nh, "fragment_offset": it.offset, "more_fragments": it.m, "identification": it.id}
    if isinstance(it, (IPv6ExtHdrHopByHop, IPv6ExtHdrDestOpt, IPv6ExtHdrRouting, IPv6ExtHdrSegmentRouting)):
        return "ext", {"next_header": it.nh, "bytes": own}
    if isinstance(it, AH):
        return "auth", {"next_header": it.nh, "spi": it.spi, "sequence_number": it.seq, "icv": own[12:]}
    if isinstance(it, UDP):
        return "udp", {"source_port": it.sport, "destination_port": it.dport, "length": it.len, "checksum": it.chksum}
    if isinstance(it, TCP):
        bits = int(it.flags)
        flags = "fin syn rst psh ack urg ece cwr ns".split()
        return "tcp", {
            "source_port": it.sport,
            "destination_port": it.dport,
            "sequence_number": it.seq,
            "acknowledgment_number": it.ack,
            "window_size": it.window,
            "checksum": it.chksum,
            "urgent_pointer": it.urgptr,
            "options": own[20 : 4 * it.dataofs],
            **{name: bits >> at & 1 for at, name in enumerate(flags)},
        }
    if isinstance(it, ICMP):
        found = {"type": it.type, "code": it.code, "checksum": it.chksum, "unknown": raw(it)[4:8]}
        for name in ("id", "seq", "gw", "ptr", "nexthopmtu", "ts_ori", "ts_rx", "ts_tx"):
            if it.getfield_and_val(name) and name in it.fields and it.fields[name] not in (None, ""):
                found[name] = address(it.gw) if name == "gw" else it.fields[name]
        return "icmp", found
    if isinstance(it, _ICMPv6):
        found = {"type": it.type, "code": it.code, "checksum": it.cksum, "unknown": raw(it)[4:8]}
        for name in ("id", "seq", "mtu", "ptr"):
            if name in it.fields:
                found[name] = it.fields[name]
        return "icmp", found
    return None
