"""Objects of packets, written by hand from the table of docs/JSON.md and the RFCs. The frames are
scapy's (2.5.0)."""

import json

import frames
from expected import BEGIN
from worked import STEP, Worked

# A frame, and its object from the link type on.
HEADERS = (
    (
        "0200000000020200000000018100600508004500001f00010000401166cb0a0000010a00000200350f"
        "a0000b179e616263",
        '"Ethernet","len":49,"wire_len":49,"link":{"Ethernet2":{"source":"02:00:00:00:00:01",'
        '"destination":"02:00:00:00:00:02","ether_type":33024}},'
        '"link_exts":[{"Vlan":{"pcp":3,"drop_eligible_indicator":false,"vlan_id":5,"ether_t'
        'ype":2048}}],"net":{"Ipv4":{"dscp":0,"ecn":0,"total_len":31,"identification":1,"do'
        'nt_fragment":false,"more_fragments":false,"fragment_offset":0,"time_to_live":64,"p'
        'rotocol":17,"header_checksum":26315,"source":"10.0.0.1","destination":"10.0.0.2",'
        '"options":""}},"transport":{"Udp":{"source_port":53,"destination_port":4000,"lengt'
        'h":11,"checksum":6046}},"payload_len":3,"payload":"616263","verdict":"Good",'
        '"header_verdict":"Good"',
    ),
    (
        "02000000000202000000000108004500004c00010000400666a90a0000010a00000201bbc822000000"
        "64000000c8d01003e878bb00000101080a000000050000000601010512000000010000000200000005"
        "0000000961626364",
        '"Ethernet","len":90,"wire_len":90,"link":{"Ethernet2":{"source":"02:00:00:00:00:01",'
        '"destination":"02:00:00:00:00:02","ether_type":2048}},"link_exts":[],'
        '"net":{"Ipv4":{"dscp":0,"ecn":0,"total_len":76,"identification":1,"dont_fragment":'
        'false,"more_fragments":false,"fragment_offset":0,"time_to_live":64,"protocol":6,"h'
        'eader_checksum":26281,"source":"10.0.0.1","destination":"10.0.0.2","options":""}},'
        '"transport":{"Tcp":{"source_port":443,"destination_port":51234,"sequence_number":1'
        '00,"acknowledgment_number":200,"data_offset":13,"ns":false,"fin":false,"syn":false'
        ',"rst":false,"psh":false,"ack":true,"urg":false,"ece":false,"cwr":false,"window_si'
        'ze":1000,"checksum":30907,"urgent_pointer":0,"options":["Noop","Noop",'
        '{"Timestamp":[5,6]},"Noop","Noop",{"SelectiveAcknowledgement":[[1,2],[5,9]]}],'
        '"options_bytes":"0101080a000000050000000601010512000000010000000200000005'
        '00000009"}},"payload_len":4,"payload":"61626364","verdict":"Good","header_verdict":"Good"',
    ),
    (
        "02000000000202000000000186dd600000000012004020010db800000000000000000000000120010d"
        "b800000000000000000000000211000104000000000009000a000a42f06162",
        '"Ethernet","len":72,"wire_len":72,"link":{"Ethernet2":{"source":"02:00:00:00:00:01",'
        '"destination":"02:00:00:00:00:02","ether_type":34525}},"link_exts":[],'
        '"net":{"Ipv6":{"traffic_class":0,"flow_label":0,"payload_length":18,"next_header":'
        '0,"hop_limit":64,"source":"2001:db8::1","destination":"2001:db8::2",'
        '"extensions":[{"HopByHop":{"next_header":17,"payload":"010400000000"}}]}},"transpo'
        'rt":{"Udp":{"source_port":9,"destination_port":10,"length":10,"checksum":17136}},"'
        'payload_len":2,"payload":"6162","verdict":"Good"',
    ),
)
ERRORS = (
    (
        "02000000000202000000000108004500001c000100",
        '"Ethernet","len":21,"wire_len":21,"link":{"Ethernet2":{"source":"02:00:00:00:00:01",'
        '"destination":"02:00:00:00:00:02","ether_type":2048}},"link_exts":[],'
        '"error":{"Len":{"required_len":20,"len":7,'
        '"len_source":"Slice","layer":"Ipv4Header","layer_start_offset":14}}',
    ),
    (
        "02000000000202000000000108004500002800010000400666cd0a0000010a00000200140050000000"
        "0000000000400220008b7c0000",
        '"Ethernet","len":54,"wire_len":54,"link":{"Ethernet2":{"source":"02:00:00:00:00:01",'
        '"destination":"02:00:00:00:00:02","ether_type":2048}},"link_exts":[],'
        '"net":{"Ipv4":{"dscp":0,"ecn":0,"total_len":40,"identification":1,"dont_fragment":'
        'false,"more_fragments":false,"fragment_offset":0,"time_to_live":64,"protocol":6,"h'
        'eader_checksum":26317,"source":"10.0.0.1","destination":"10.0.0.2","options":""}},'
        '"error":{"Tcp":{"DataOffsetTooSmall":{"data_offset":4}}}',
    ),
)
RAW_ERRORS = (
    (
        "4500001c000100",
        '"Ip","len":21,"wire_len":7,"link":{"Made":{"source":"00:00:00:00:00:00","ether_type":2048}},'
        '"link_exts":[],"error":{"Len":{"required_len":20,"len":7,"len_source":"Slice",'
        '"layer":"Ipv4Header","layer_start_offset":14}}',
    ),
)
FRAGMENTS = (
    (
        frames.FRAGMENTS[0],
        '"Ethernet","len":50,"wire_len":50,"link":{"Ethernet2":{"source":"02:00:00:00:00:01",'
        '"destination":"02:00:00:00:00:02","ether_type":2048}},"link_exts":[],'
        '"net":{"Ipv4":{"dscp":0,"ecn":0,"total_len":36,"identification":4660,"dont_fragmen'
        't":false,"more_fragments":true,"fragment_offset":0,"time_to_live":64,"protocol":17'
        ',"header_checksum":13459,"source":"10.0.0.1","destination":"10.0.0.2",'
        '"options":""}},"payload_len":16,"fragment":{"Waits":{"begun":1}},"header_verdict":"Good"',
    ),
    (
        frames.FRAGMENTS[2],
        '"Ethernet","len":46,"wire_len":46,"link":{"Ethernet2":{"source":"02:00:00:00:00:01",'
        '"destination":"02:00:00:00:00:02","ether_type":2048}},"link_exts":[],'
        '"net":{"Ipv4":{"dscp":0,"ecn":0,"total_len":32,"identification":4660,"dont_fragmen'
        't":false,"more_fragments":false,"fragment_offset":2,"time_to_live":64,"protocol":1'
        '7,"header_checksum":21653,"source":"10.0.0.1","destination":"10.0.0.2",'
        '"options":""}},"payload_len":12,"fragment":{"Completes":{"begun":1,"ip_number":17,'
        '"len":28,"transport":{"Udp":{"source_port":53,"destination_port":4000,"length":28,'
        '"checksum":45996}}}},"verdict":"Good","header_verdict":"Good"',
    ),
)


def worked(name, link_type, words, rows):
    objects = [
        f'{{"number":{at + 1},"time":{BEGIN + at * STEP},"interface":0,"link_type":{members}}}'
        for at, (_, members) in enumerate(rows)
    ]
    assert all(json.loads(it) for it in objects)
    return Worked(name, link_type, [frame for frame, _ in rows], [(words, objects)])


CAPTURES = (
    worked("headers", 1, ["json", "--payload"], HEADERS),
    worked("errors", 1, ["json"], ERRORS),
    worked("raw_errors", 101, ["json"], RAW_ERRORS),
    worked("objects_of_fragments", 1, ["json"], FRAGMENTS),
)
