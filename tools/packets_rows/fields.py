"""The objects of headers by the table of docs/JSON.md, of fields that were put into packets."""

FLAGS = {
    "ns": "N",
    "fin": "F",
    "syn": "S",
    "rst": "R",
    "psh": "P",
    "ack": "A",
    "urg": "U",
    "ece": "E",
    "cwr": "C",
}


def number(data, at, size=2):
    return int.from_bytes(data[at : at + size], "big")


def members(link, exts, net=None, transport=None, payload=b"", fragment=None, other=None):
    """The members of a packet's object after `len`."""
    packet = {"link": link, "link_exts": exts}
    packet |= {"net": net} if net else {}
    packet |= {"transport": transport} if transport else other or {}
    packet |= {"payload_len": len(payload), "payload": payload.hex()}
    return packet | ({"fragment": fragment} if fragment else {})


def cut_off(layer, offset, required, there, source="Slice"):
    error = {"required_len": required, "len": there, "len_source": source, "layer": layer}
    return {"error": {"Len": error | {"layer_start_offset": offset}}}


def vlan(vlan_id, ether_type, pcp=0, dei=False):
    header = {
        "pcp": pcp,
        "drop_eligible_indicator": dei,
        "vlan_id": vlan_id,
        "ether_type": ether_type,
    }
    return {"Vlan": header}


def ipv4(it, auth=None):
    """Of scapy's header, which was read again, so that its lengths and checksum are there."""
    header = {"dscp": it.tos >> 2, "ecn": it.tos & 3, "total_len": it.len, "identification": it.id}
    header |= {
        "dont_fragment": "DF" in it.flags,
        "more_fragments": "MF" in it.flags,
        "fragment_offset": it.frag,
    }
    header |= {"time_to_live": it.ttl, "protocol": it.proto, "header_checksum": it.chksum}
    header |= {"source": it.src, "destination": it.dst, "options": bytes(it)[20 : 4 * it.ihl].hex()}
    return {"Ipv4": header | ({"auth": auth} if auth else {})}


def ipv6(it, extensions=()):
    header = {
        "traffic_class": it.tc,
        "flow_label": it.fl,
        "payload_length": it.plen,
        "next_header": it.nh,
    }
    header |= {
        "hop_limit": it.hlim,
        "source": it.src,
        "destination": it.dst,
        "extensions": list(extensions),
    }
    return {"Ipv6": header}


def arp(it, sender=None, target=None):
    packet = {"hw_addr_type": it.hwtype, "proto_addr_type": it.ptype, "operation": it.op}
    packet |= {"sender_hw_addr": it.hwsrc, "sender_protocol_addr": sender or it.psrc}
    return {"Arp": packet | {"target_hw_addr": it.hwdst, "target_protocol_addr": target or it.pdst}}


def udp(data):
    names = ("source_port", "destination_port", "length", "checksum")
    return {"Udp": {name: number(data, 2 * at) for at, name in enumerate(names)}}


def tcp(it, options=()):
    header = {"source_port": it.sport, "destination_port": it.dport, "sequence_number": it.seq}
    header |= {"acknowledgment_number": it.ack, "data_offset": it.dataofs}
    header |= {name: letter in str(it.flags) for name, letter in FLAGS.items()}
    header |= {"window_size": it.window, "checksum": it.chksum, "urgent_pointer": it.urgptr}
    read = bytes(it.original)[20 : 4 * it.dataofs].hex()
    return {"Tcp": header | {"options": list(options)} | ({"options_bytes": read} if read else {})}


def icmp(name, data, more):
    header = {
        "type_u8": data[0],
        "code_u8": data[1],
        "checksum": number(data, 2),
        "bytes5to8": data[4:8].hex(),
    }
    return {name: header | more}


def fragment(next_header, offset, more, identification):
    """A fragment header of IPv6."""
    header = {"next_header": next_header, "fragment_offset": offset, "more_fragments": more}
    return {"Fragment": header | {"identification": identification}}


def auth(next_header, spi, sequence, icv):
    return {
        "next_header": next_header,
        "spi": spi,
        "sequence_number": sequence,
        "raw_icv": icv.hex(),
    }
