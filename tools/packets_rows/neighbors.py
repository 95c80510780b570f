"""Neighbor discovery (RFC 4861, RFC 8106), multicast listener discovery (RFC 2710, RFC 3810) and IGMP (RFC 2236, RFC 3376):
scapy's messages, and their texts and members by hand."""

import struct

import fields
from build import A6, A_MAC, B6, icmp, ip_packet, v4, v6
from scapy.contrib.igmp import IGMP
from scapy.contrib.igmpv3 import IGMPv3, IGMPv3gr, IGMPv3mq, IGMPv3mr
from scapy.layers.inet6 import (
    ICMPv6MLDMultAddrRec,
    ICMPv6MLDone,
    ICMPv6MLQuery,
    ICMPv6MLQuery2,
    ICMPv6MLReport,
    ICMPv6MLReport2,
    ICMPv6ND_NA,
    ICMPv6ND_NS,
    ICMPv6ND_RA,
    ICMPv6ND_Redirect,
    ICMPv6ND_RS,
    ICMPv6NDOptDNSSL,
    ICMPv6NDOptDstLLAddr,
    ICMPv6NDOptMTU,
    ICMPv6NDOptPrefixInfo,
    ICMPv6NDOptRDNSS,
    ICMPv6NDOptRedirectedHdr,
    ICMPv6NDOptSrcLLAddr,
    ICMPv6NDOptUnknown,
)

ENDS = f"{A6} > {B6}"
SOURCE = ICMPv6NDOptSrcLLAddr(lladdr=A_MAC)
TARGET = ICMPv6NDOptDstLLAddr(lladdr=A_MAC)
SOURCE_OBJECT = {"SourceLinkLayerAddress": A_MAC}
TARGET_OBJECT = {"TargetLinkLayerAddress": A_MAC}
PREFIX = ICMPv6NDOptPrefixInfo(prefixlen=64, L=1, A=0, validlifetime=7200, preferredlifetime=1800, prefix="2001:db8::")
PREFIX_OBJECT = {
    "PrefixInformation": {
        "prefix_length": 64,
        "on_link": True,
        "autonomous": False,
        "valid_lifetime": 7200,
        "preferred_lifetime": 1800,
        "prefix": "2001:db8::",
    }
}


def advertised(managed, other, lifetime, options):
    header = {"cur_hop_limit": 64, "managed": managed, "other": other, "router_lifetime": lifetime}
    times = {"reachable_time": 30000, "retrans_timer": 1000, "options": options}
    return {"ndp": {"RouterAdvertisement": header | times}}


def neighbor(router, solicited, overrides, options):
    flags = {"router": router, "solicited": solicited, "overrides": overrides}
    return {"ndp": {"NeighborAdvertisement": flags | {"target": "fe80::1", "options": options}}}


def solicited(options):
    return {"ndp": {"NeighborSolicitation": {"target": "fe80::1", "options": options}}}


def advertisement(flags, lifetime):
    times = {"reachabletime": 30000, "retranstimer": 1000}
    return ICMPv6ND_RA(chlim=64, M="M" in flags, O="O" in flags, routerlifetime=lifetime, **times)


# A message, what stands between the protocol and the verdict, and its members by kind.
NDP = (
    (ICMPv6ND_RS(), "router solicitation", {"ndp": {"RouterSolicitation": {"options": []}}}),
    (
        ICMPv6ND_RS() / SOURCE,
        f"router solicitation from {A_MAC}",
        {"ndp": {"RouterSolicitation": {"options": [SOURCE_OBJECT]}}},
    ),
    (
        advertisement("", 1800) / PREFIX,
        "router advertisement lifetime 1800 prefix 2001:db8::/64",
        advertised(False, False, 1800, [PREFIX_OBJECT]),
    ),
    (
        advertisement("MO", 0) / SOURCE / ICMPv6NDOptMTU(mtu=1500) / ICMPv6NDOptRDNSS(lifetime=60, dns=["2001:db8::53", "fe80::2"]),
        f"router advertisement lifetime 0 from {A_MAC} mtu 1500 dns 2001:db8::53 fe80::2 (managed, other)",
        advertised(
            True,
            True,
            0,
            [SOURCE_OBJECT, {"Mtu": 1500}, {"RecursiveDnsServer": {"lifetime": 60, "addresses": ["2001:db8::53", "fe80::2"]}}],
        ),
    ),
    (
        advertisement("O", 9) / ICMPv6NDOptDNSSL(lifetime=60, searchlist=["a.example"]) / ICMPv6NDOptUnknown(type=24, len=1, data=b"abcdef"),
        "router advertisement lifetime 9 search list option 24 (other)",
        advertised(
            False,
            True,
            9,
            [
                {"DnsSearchList": {"lifetime": 60, "names": "0161076578616d706c65000000000000"}},
                {"Unknown": {"kind": 24, "bytes": "616263646566"}},
            ],
        ),
    ),
    (ICMPv6ND_NS(tgt="fe80::1"), "neighbor solicitation, who has fe80::1", solicited([])),
    (
        ICMPv6ND_NS(tgt="fe80::1") / SOURCE,
        f"neighbor solicitation, who has fe80::1 from {A_MAC}",
        solicited([SOURCE_OBJECT]),
    ),
    (
        ICMPv6ND_NA(tgt="fe80::1", R=1, S=1, O=0) / TARGET,
        f"neighbor advertisement fe80::1 is at {A_MAC} (router, solicited)",
        neighbor(True, True, False, [TARGET_OBJECT]),
    ),
    (
        ICMPv6ND_NA(tgt="fe80::1", R=0, S=0, O=1),
        "neighbor advertisement fe80::1 (override)",
        neighbor(False, False, True, []),
    ),
    (
        ICMPv6ND_Redirect(tgt="fe80::3", dst="2001:db8::99") / TARGET / ICMPv6NDOptRedirectedHdr(len=2, pkt=b"12345678"),
        f"redirect of 2001:db8::99 to fe80::3 at {A_MAC} packet of 8",
        {
            "ndp": {
                "Redirect": {
                    "target": "fe80::3",
                    "destination": "2001:db8::99",
                    "options": [TARGET_OBJECT, {"RedirectedHeader": "3132333435363738"}],
                }
            }
        },
    ),
)
GROUP, OTHER_GROUP = "ff02::1:3", "ff02::fb"
SOURCES = ["2001:db8::9", "2001:db8::a"]
NO_SOURCES = {"sources": [], "auxiliary_data": ""}
RECORDS = [
    ICMPv6MLDMultAddrRec(rtype=4, dst=GROUP),
    ICMPv6MLDMultAddrRec(rtype=6, dst=OTHER_GROUP, sources=SOURCES),
    ICMPv6MLDMultAddrRec(rtype=9, dst=GROUP, auxdata=b"abcd", auxdata_len=1),
]
RECORD_OBJECTS = [
    {"GroupRecord": {"kind": 4, "group": GROUP} | NO_SOURCES},
    {"GroupRecord": {"kind": 6, "group": OTHER_GROUP, "sources": SOURCES, "auxiliary_data": ""}},
    {"GroupRecord": {"kind": 9, "group": GROUP, "sources": [], "auxiliary_data": "61626364"}},
]
MLD = (
    (
        ICMPv6MLQuery(mladdr="::", mrd=10000),
        "listener query for all groups",
        {"mld": {"Query": {"max_response_delay": 10000, "group": "::"}}},
    ),
    (
        ICMPv6MLQuery2(mladdr=GROUP, mrd=1000, sources=SOURCES, sources_number=2),
        "listener query v2 for ff02::1:3 sources 2001:db8::9 2001:db8::a",
        {"mld": {"QueryV2": {"max_response_code": 1000, "group": GROUP, "sources": SOURCES}}},
    ),
    (ICMPv6MLReport(mladdr=GROUP), "listener report ff02::1:3", {"mld": {"Report": {"group": GROUP}}}),
    (ICMPv6MLDone(mladdr=GROUP), "listener done ff02::1:3", {"mld": {"Done": {"group": GROUP}}}),
    (
        ICMPv6MLReport2(records=RECORDS, records_number=3),
        "listener report v2 ff02::1:3 (to exclude), ff02::fb (block 2001:db8::9 2001:db8::a), ff02::1:3 (type 9)",
        {"mld": {"ReportV2": {"records": RECORD_OBJECTS}}},
    ),
)


def listed(message):
    """The bytes after the checksum, and the type and code before."""
    data = bytes(message)
    return data[0], data[1], data[4:]


def needed(kind, required, there):
    return {kind: {"Len": {"required_len": required, "len": there}}}


def missing(kind, required, there):
    return {kind: {"MulticastError": {"needed_len": required, "actual_len": there}}}


TARGET_BYTES = bytes.fromhex("00000000fe800000000000000000000000000001")
GROUP_BYTES = bytes.fromhex("00000000ff020000000000000000000000010003")
# Type, code, what follows the checksum; words; members. Bytes are missing, a length is wrong, a code isn't 0.
BROKEN = (
    (133, 0, TARGET_BYTES[:4] + b"\1\0abcdef", "router solicitation, option at byte 8 of length 0", {"ndp": {"RouterSolicitation": {"options": [{"ZeroLength": {"offset": 0}}]}}}),
    (134, 0, bytes(4), "router advertisement, cut off: 16 bytes needed, 8 there", needed("ndp", 16, 8)),
    (135, 0, TARGET_BYTES[:19], "neighbor solicitation, cut off: 24 bytes needed, 23 there", needed("ndp", 24, 23)),
    (137, 0, TARGET_BYTES, "redirect, cut off: 40 bytes needed, 24 there", needed("ndp", 40, 24)),
    (
        135,
        3,
        TARGET_BYTES + bytes(SOURCE) + b"\5",
        f"neighbor solicitation code 3, who has fe80::1 from {A_MAC}, option at byte 32 cut off",
        solicited([SOURCE_OBJECT, {"UnexpectedEnd": {"offset": 8, "needed_len": 2, "actual_len": 1}}]),
    ),
    (
        136,
        0,
        b"\x40" + TARGET_BYTES[1:] + b"\2\2abcdef",
        "neighbor advertisement fe80::1, option at byte 24 cut off (solicited)",
        neighbor(False, True, False, [{"UnexpectedEnd": {"offset": 0, "needed_len": 16, "actual_len": 8}}]),
    ),
    (130, 0, GROUP_BYTES + b"abc", "listener query, cut off: 28 bytes needed, 27 there", missing("mld", 28, 27)),
    (131, 0, bytes(4), "listener report, cut off: 24 bytes needed, 8 there", missing("mld", 24, 8)),
    (
        143,
        0,
        struct.pack("!HH", 0, 2) + bytes(RECORDS[0]) + b"\4\0\0\1" + GROUP_BYTES[4:],
        "listener report v2 ff02::1:3 (to exclude), record at byte 28 cut off",
        {"mld": {"ReportV2": {"records": [RECORD_OBJECTS[0], {"GroupRecordError": {"offset": 20, "needed_len": 36, "actual_len": 20}}]}}},
    ),
)


def over_ipv6():
    messages = [(*listed(it[0]), *it[1:]) for it in (*NDP, *MLD)]
    for kind, code, rest, words, more in (*messages, *BROKEN):
        message = icmp(kind, code, rest, A6)
        transport = fields.icmp("Icmpv6", message, more)
        line = f"{ENDS} ICMPv6 {words}  good"
        yield ip_packet(v6(58, message), line, ("ICMPv6",), "good", transport=transport, payload=message[8:])


GROUP4, SOURCES4 = "239.1.2.3", ["10.0.0.9", "10.0.0.10"]
RECORDS4 = [
    IGMPv3gr(rtype=3, maddr=GROUP4),
    IGMPv3gr(rtype=5, maddr="224.0.0.251", srcaddrs=SOURCES4, numsrc=2),
]
RECORD_OBJECTS4 = [
    {"GroupRecord": {"kind": 3, "group": GROUP4} | NO_SOURCES},
    {"GroupRecord": {"kind": 5, "group": "224.0.0.251", "sources": SOURCES4, "auxiliary_data": ""}},
]
IGMP_MESSAGES = (
    (IGMP(type=0x11, mrcode=100, gaddr="0.0.0.0"), "query v2 for all groups", {"Query": {"max_response_time": 100, "group": "0.0.0.0"}}),
    (IGMP(type=0x11, mrcode=0, gaddr="0.0.0.0"), "query v1 for all groups", {"Query": {"max_response_time": 0, "group": "0.0.0.0"}}),
    (IGMP(type=0x11, mrcode=10, gaddr=GROUP4), "query v2 for 239.1.2.3", {"Query": {"max_response_time": 10, "group": GROUP4}}),
    (
        IGMPv3(type=0x11, mrcode=20) / IGMPv3mq(gaddr=GROUP4, srcaddrs=SOURCES4, numsrc=2),
        "query v3 for 239.1.2.3 sources 10.0.0.9 10.0.0.10",
        {"QueryV3": {"max_response_code": 20, "group": GROUP4, "sources": SOURCES4}},
    ),
    (IGMP(type=0x12, mrcode=0, gaddr=GROUP4), "report v1 239.1.2.3", {"ReportV1": {"group": GROUP4}}),
    (IGMP(type=0x16, mrcode=0, gaddr=GROUP4), "report v2 239.1.2.3", {"ReportV2": {"group": GROUP4}}),
    (IGMP(type=0x17, mrcode=0, gaddr=GROUP4), "leave 239.1.2.3", {"Leave": {"group": GROUP4}}),
    (
        IGMPv3(type=0x22) / IGMPv3mr(records=RECORDS4, numgrp=2),
        "report v3 239.1.2.3 (to include), 224.0.0.251 (allow 10.0.0.9 10.0.0.10)",
        {"ReportV3": {"records": RECORD_OBJECTS4}},
    ),
    (b"\x11\0\0\0\0\0\0", "query, cut off: 8 bytes needed, 7 there", {"MulticastError": {"needed_len": 8, "actual_len": 7}}),
    (b"\x22\0\0\0\0\0\0\1\1\0\0\0", "report v3 record at byte 8 cut off", {"ReportV3": {"records": [{"GroupRecordError": {"offset": 0, "needed_len": 8, "actual_len": 4}}]}}),
    (b"\x13\0\0\0\0\0\0\0", "len 8", None),
)
ROUTER_ALERT = bytes.fromhex("94040000")


def over_ipv4():
    for message, words, member in IGMP_MESSAGES:
        data = bytes(message)
        line = f"10.0.0.1 > 10.0.0.2 options [router alert] IGMP {words}"
        other = {"igmp": member} if member else {}
        yield ip_packet(v4(2, data, ROUTER_ALERT), line, ("IGMP",), "none", payload=data, other=other)
