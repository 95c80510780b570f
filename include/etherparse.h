/* Packets sliced, judged, summed, built, put together and read from captures by proved code. Written by tools/bindings.
   What a caller owes:
   - no pointer is null, also where the length after it is 0, and each points to as many bytes or
     structs as that length says, at most PTRDIFF_MAX bytes of memory that was written before;
   - nobody writes during a call what it reads, nor reads or writes what it writes; what it writes
     overlaps nothing else that is passed.
   No call keeps a pointer, blocks or ends the process.
   Calls may call malloc, realloc and free, which come from one allocator and align blocks as
   usual. None is made in a signal handler, nor in the forked child of a process with threads.
   A pool, stream or capture begins as zeros, which is not open, and only these calls change it. It isn't copied. Any
   thread may use it, if each call to it begins after the one before has returned. */
#ifndef ETHERPARSE_H
#define ETHERPARSE_H
#include <stdbool.h>
#include <stddef.h>
#include <stdint.h>
#ifdef __cplusplus
extern "C" {
#endif

/* The version of this header. */
#define EP_VERSION "2.0.0"

/* The version of the library, as EP_VERSION is that of the header. No proof covers this call alone. */
const char *ep_version(void);

/* More bytes of a capture have to follow, or it ends. */
#define EP_MORE_BYTES 7
/* From the lower endpoint to the higher one. */
#define EP_FROM_LOWER 1
/* From the higher endpoint to the lower one. */
#define EP_FROM_HIGHER 2
/* No segment of the connection came. */
#define EP_STATE_UNSEEN 0
/* The endpoint that opens it sent SYN. */
#define EP_STATE_SYN_SENT 1
/* The other endpoint answered with SYN, and the first one didn't acknowledge that. */
#define EP_STATE_SYN_RECEIVED 2
/* Both endpoints may send. */
#define EP_STATE_ESTABLISHED 3
/* One endpoint sent FIN. */
#define EP_STATE_CLOSING 4
/* Both endpoints sent FIN. */
#define EP_STATE_CLOSED 5
/* An endpoint sent RST before both sent FIN. */
#define EP_STATE_RESET 6
/* No message of a multicast group. */
#define EP_GROUP_NONE 0
/* A query without sources: version 1 of MLD, 1 or 2 of IGMP. */
#define EP_GROUP_QUERY 1
/* A query that may name sources: version 2 of MLD, 3 of IGMP. */
#define EP_GROUP_QUERY_WITH_SOURCES 2
/* A report of version 1: of one group. */
#define EP_GROUP_REPORT 3
/* Of IGMP: a report of version 2: of one group. */
#define EP_GROUP_REPORT_V2 4
/* A group is left. */
#define EP_GROUP_LEAVE 5
/* A report of records: version 2 of MLD, 3 of IGMP. */
#define EP_GROUP_RECORDS 6
/* A message that is shorter than its type needs. */
#define EP_GROUP_TOO_SHORT 7
/* No message, since there are too few bytes, or not the 20 of a timestamp message. */
#define EP_ICMP_NONE 0
/* A type and code that have no other kind. */
#define EP_ICMP_UNKNOWN 1
/* An echo request. */
#define EP_ICMP_ECHO_REQUEST 2
/* The reply to one. */
#define EP_ICMP_ECHO_REPLY 3
/* A packet couldn't be delivered. */
#define EP_ICMP_DESTINATION_UNREACHABLE 4
/* Of ICMPv4: another gateway is the better one. */
#define EP_ICMP_REDIRECT 5
/* A packet or its fragments took too long. */
#define EP_ICMP_TIME_EXCEEDED 6
/* A packet's header has a fault. */
#define EP_ICMP_PARAMETER_PROBLEM 7
/* Of ICMPv4: a request for the receiver's time. */
#define EP_ICMP_TIMESTAMP_REQUEST 8
/* Of ICMPv4: the reply to one. */
#define EP_ICMP_TIMESTAMP_REPLY 9
/* Of ICMPv6: a packet is bigger than the next link takes. */
#define EP_ICMP_PACKET_TOO_BIG 10
/* It is done, or there was nothing to do. */
#define EP_DONE 0
/* The output is too short. */
#define EP_NO_ROOM 1
/* Out of memory. */
#define EP_NO_MEMORY 2
/* A packet, a fragment, a segment, a field of a plan, a payload or a capture is refused. */
#define EP_REFUSED 3
/* The pool, stream or capture isn't open, or is open already, or the pool keeps a message. */
#define EP_WRONG_STATE 4
/* A message is complete. */
#define EP_COMPLETED 5
/* No option is left. */
#define EP_NDP_OPTION_NONE 0
/* An option of another type, or of a length that its type doesn't have. */
#define EP_NDP_OPTION_UNKNOWN 1
/* The sender's link-layer address. */
#define EP_NDP_OPTION_SOURCE_LINK_LAYER_ADDRESS 2
/* The target's link-layer address. */
#define EP_NDP_OPTION_TARGET_LINK_LAYER_ADDRESS 3
/* A prefix. */
#define EP_NDP_OPTION_PREFIX_INFORMATION 4
/* The start of the packet that is redirected. */
#define EP_NDP_OPTION_REDIRECTED_HEADER 5
/* The link's greatest packet. */
#define EP_NDP_OPTION_MTU 6
/* Recursive DNS servers. */
#define EP_NDP_OPTION_RECURSIVE_DNS_SERVER 7
/* Domains in which names are searched. */
#define EP_NDP_OPTION_DNS_SEARCH_LIST 8
/* No option: `fault` says why, and nothing is read after it. */
#define EP_NDP_OPTION_FAULT 9
/* A packet that has no TCP segment whose header is whole, or is a fragment. */
#define EP_NO_SEGMENT 6
/* Nothing is refused. */
#define EP_REFUSAL_NONE 0
/* A layer has too few bytes. */
#define EP_REFUSAL_TOO_FEW_BYTES 1
/* A packet type of a Linux cooked capture above 4. */
#define EP_REFUSAL_LINUX_SLL_PACKET_TYPE 2
/* A hardware type of a Linux cooked capture that isn't read; all are today. */
#define EP_REFUSAL_LINUX_SLL_HARDWARE_TYPE 3
/* A MACsec version other than 0. */
#define EP_REFUSAL_MACSEC_VERSION 4
/* A MACsec short length below that of the ether type. */
#define EP_REFUSAL_MACSEC_SHORT_LEN 5
/* An IP version other than 4 and 6. */
#define EP_REFUSAL_IP_VERSION 6
/* An IP version other than 4 where the ether type names IPv4. */
#define EP_REFUSAL_IPV4_VERSION 7
/* A length of an IPv4 header (IHL) below 5. */
#define EP_REFUSAL_IPV4_HEADER_LEN 8
/* An IP version other than 6 where the ether type names IPv6. */
#define EP_REFUSAL_IPV6_VERSION 9
/* A payload length 0 of an authentication header. */
#define EP_REFUSAL_AUTH_HEADER_LEN 10
/* Hop-by-hop options after another extension header. */
#define EP_REFUSAL_HOP_BY_HOP_NOT_AT_START 11
/* A TCP data offset below 5. */
#define EP_REFUSAL_TCP_DATA_OFFSET 12
/* A segment that ends after the window. */
#define EP_SEGMENT_OUTSIDE_WINDOW 1
/* A segment with a byte or FIN after FIN, or whose FIN stands before a byte or FIN. */
#define EP_SEGMENT_AFTER_FIN 2
/* A segment after the connection was reset. */
#define EP_SEGMENT_AFTER_RESET 3
/* No such link header, or none before an ARP packet. */
#define EP_FIELD_LINK 1
/* A packet type of a cooked capture above 4. */
#define EP_FIELD_PACKET_TYPE 2
/* More than two tags, or tags without an Ethernet II header. */
#define EP_FIELD_TAG_COUNT 3
/* An identifier of the first tag above 4095. */
#define EP_FIELD_OUTER_VLAN_ID 4
/* A priority of the first tag above 7. */
#define EP_FIELD_OUTER_PRIORITY 5
/* An identifier of the second tag above 4095. */
#define EP_FIELD_INNER_VLAN_ID 6
/* A priority of the second tag above 7. */
#define EP_FIELD_INNER_PRIORITY 7
/* No such IP version. */
#define EP_FIELD_IP_VERSION 8
/* A differentiated services code point above 63. */
#define EP_FIELD_DSCP 9
/* An explicit congestion notification above 3. */
#define EP_FIELD_ECN 10
/* An offset of a fragment over IPv4 above 8191. */
#define EP_FIELD_FRAGMENT_OFFSET 11
/* More than 40 bytes of IPv4's options, or no whole words of 4. */
#define EP_FIELD_IPV4_OPTIONS_LEN 12
/* A flow label above 1048575. */
#define EP_FIELD_FLOW_LABEL 13
/* Hop-by-hop options of a length that no header states, not within the bytes, or over IPv4. */
#define EP_FIELD_HOP_BY_HOP_OPTIONS 14
/* The same of destination options before a routing header. */
#define EP_FIELD_DESTINATION_OPTIONS 15
/* The same of a routing header. */
#define EP_FIELD_ROUTING 16
/* A fragment header whose offset is above 8191, or over IPv4. */
#define EP_FIELD_FRAGMENT_HEADER 17
/* An integrity check value of a length that no header states, or not within the bytes. */
#define EP_FIELD_AUTHENTICATION 18
/* The same as of destination options, of those after a routing header, or no routing header. */
#define EP_FIELD_FINAL_DESTINATION_OPTIONS 19
/* No such transport header, or ICMPv6 over IPv4. */
#define EP_FIELD_TRANSPORT 20
/* More than 40 bytes of TCP's options. */
#define EP_FIELD_OPTIONS_LEN 21
/* Hardware addresses that differ in length, have more than 255 bytes, or aren't within the bytes. */
#define EP_FIELD_HARDWARE_ADDRESSES 22
/* The same of protocol addresses. */
#define EP_FIELD_PROTOCOL_ADDRESSES 23
/* A payload that is longer than the length field of the IP header can state. */
#define EP_FIELD_PAYLOAD 24
#define EP_LAYER_LINUX_SLL_HEADER 1
#define EP_LAYER_ETHERNET2_HEADER 2
#define EP_LAYER_ETHER_PAYLOAD 3
#define EP_LAYER_VLAN_HEADER 4
#define EP_LAYER_MACSEC_HEADER 5
#define EP_LAYER_MACSEC_PACKET 6
#define EP_LAYER_IP_HEADER 7
#define EP_LAYER_IPV4_HEADER 8
#define EP_LAYER_IPV4_PACKET 9
#define EP_LAYER_IP_AUTH_HEADER 10
#define EP_LAYER_IPV6_HEADER 11
#define EP_LAYER_IPV6_PACKET 12
#define EP_LAYER_IPV6_EXT_HEADER 13
#define EP_LAYER_IPV6_HOP_BY_HOP_HEADER 14
#define EP_LAYER_IPV6_DEST_OPTIONS_HEADER 15
#define EP_LAYER_IPV6_ROUTE_HEADER 16
#define EP_LAYER_IPV6_FRAG_HEADER 17
#define EP_LAYER_UDP_HEADER 18
#define EP_LAYER_UDP_PAYLOAD 19
#define EP_LAYER_TCP_HEADER 20
#define EP_LAYER_ICMPV4 21
#define EP_LAYER_ICMPV4_TIMESTAMP 22
#define EP_LAYER_ICMPV4_TIMESTAMP_REPLY 23
#define EP_LAYER_ICMPV6 24
#define EP_LAYER_ARP 25
#define EP_SOURCE_SLICE 1
#define EP_SOURCE_MACSEC_SHORT_LENGTH 2
#define EP_SOURCE_IPV4_HEADER_TOTAL_LEN 3
#define EP_SOURCE_IPV6_HEADER_PAYLOAD_LEN 4
#define EP_SOURCE_UDP_HEADER_LEN 5
#define EP_SOURCE_TCP_HEADER_LEN 6
#define EP_SOURCE_ARP_ADDR_LENGTHS 7

/* Why a packet is refused. All fields are 0 where it isn't. */
typedef struct {
    /* Which of the refusals it is: 0 none, 1 too few bytes, and from 2 on a header that breaks its
       format. */
    uint32_t kind;
    /* The layer at fault, numbered from 1 as the errors of `etherparse` name the layers. */
    uint32_t layer;
    /* Of too few bytes: how many the layer needs. */
    size_t needed;
    /* Of too few bytes: how many are there. */
    size_t there;
    /* Of too few bytes: the offset of the layer's first byte. */
    size_t place;
    /* Of too few bytes: where their number comes from. */
    uint32_t source;
    /* Of a header that breaks its format: the wrong value of its field. */
    uint32_t value;
} ep_refusal;

/* Why a fragment is refused. All fields are 0 where it isn't. */
typedef struct {
    /* 0 not refused, 1 others follow it and its length is no multiple of 8, 2 it ends beyond 65535
       bytes, 3 it ends elsewhere than the datagram, 4 over IPv6 it overlaps another fragment: then
       the datagram is dropped with all of its fragments. */
    uint32_t kind;
    /* Of kinds 1, 2 and 4: its offset in the datagram, in units of 8 bytes. */
    uint16_t offset;
    /* Of kind 3: the end of the datagram, in bytes. */
    uint16_t previous_end;
    /* Of kind 3: its own end, in bytes. */
    uint16_t end;
    /* Of kinds 1, 2 and 4: its length, in bytes. */
    size_t len;
} ep_part_refusal;

/* A reassembled message. All fields are 0 where there is none. */
typedef struct {
    /* How many bytes it has. */
    size_t len;
    /* The IP version: 4 or 6. */
    uint32_t ip_version;
    /* The number of its protocol. */
    uint8_t number;
    /* The source address, where `ip_version` is 4, else 0. */
    uint8_t ipv4_source[4];
    /* The destination address, where `ip_version` is 4, else 0. */
    uint8_t ipv4_destination[4];
    /* The source address, where `ip_version` is 6, else 0. */
    uint8_t ipv6_source[16];
    /* The destination address, where `ip_version` is 6, else 0. */
    uint8_t ipv6_destination[16];
} ep_message;

/* What became of a frame that a pool was given, or of the message that it kept. */
typedef struct {
    /* 5 where a message is complete and written, 1 where it is complete and the output is too short
       for it, and 0 where none is complete; 2 out of memory, 3 refused, 4 in a wrong state. */
    uint32_t status;
    /* Why the frame is refused. */
    ep_refusal refusal;
    /* Why the fragment in the frame is refused. */
    ep_part_refusal part;
    /* The message that is complete. */
    ep_message message;
} ep_added;

/* The result of building a packet. */
typedef struct {
    /* 0 where it is built, 1 where the output is shorter than the packet, 2 where there is no
       memory, 3 where it is refused: EP_DONE, EP_NO_ROOM, EP_NO_MEMORY or EP_REFUSED. */
    uint32_t status;
    /* What is at fault, where it is refused, else 0: the first of EP_FIELD_LINK and so on in the
       order of their numbers; but that the payload is too long comes before ICMPv6 over IPv4. */
    uint32_t field;
    /* The length of the packet, where it is built or the output is too short, else 0. */
    size_t len;
} ep_built;

/* A capture file, pcap or pcapng, whose bytes are passed from its first byte on. It starts as
   zeros, and only these calls change it. */
typedef struct {
    /* Whether it was opened and not freed. */
    bool is_open;
    /* For these calls alone. */
    void *held;
} ep_capture;

/* Where bytes are in those that were passed. */
typedef struct {
    /* The offset of the first byte. */
    size_t offset;
    /* How many bytes. */
    size_t len;
} ep_part;

/* A packet of a capture. */
typedef struct {
    /* Its number in the capture, from 1, those included that aren't given. */
    uint64_t number;
    /* When it was captured, in nanoseconds since the year 1970 began; 0 where the capture doesn't
       say. */
    uint64_t time;
    /* The number of its interface, from 0, over all sections of a pcapng file. */
    uint32_t interface_number;
    /* How many bytes it had on the wire, as the capture says. */
    uint32_t wire_len;
    /* The kind of link that it was captured on: 1 Ethernet, 2 none but IP, 3 BSD loopback, 4 OpenBSD
       loopback, 5 a Linux cooked capture, 6 one of version 2. */
    uint32_t link;
    /* How many bytes `header` has: 14, or 0 where it was captured as an Ethernet II frame. */
    uint32_t header_len;
    /* An Ethernet II header for what follows its link's own: to no address, from the sender's, if it
       has six bytes. */
    uint8_t header[14];
    /* Where its frame is in the bytes that were passed, or what follows its link's own header. */
    ep_part bytes;
} ep_captured_packet;

/* Why a capture is refused, and where. */
typedef struct {
    /* 1 no capture file, 2 another link type, 3 another link type than Ethernet's after the 32nd
       interface of a section, 4 a packet that is too long, 5 a packet without an ether type, 6 the
       capture ends within a packet, 7 a block that is too long, 8 another version of pcapng, 9 a
       block that isn't well made; 0 where it isn't refused. */
    uint32_t kind;
    /* The link type, the packet's or block's length, or the major version, else 0. */
    uint32_t value;
    /* The minor version, else 0. */
    uint32_t minor;
    /* The type of the block there, where it is known, else 0. */
    uint32_t block_type;
    /* The number in the capture of the packet there, or of the first one after it. */
    uint64_t packet;
    /* How many bytes come before the file header, packet record or block there. */
    uint64_t offset;
} ep_capture_error;

/* What is at the start of some bytes of a capture. */
typedef struct {
    /* 0 where there is a packet, 7 where more bytes have to follow or the capture ends, 3 where it
       is refused, 4 where it isn't open: EP_DONE, EP_MORE_BYTES, EP_REFUSED or EP_WRONG_STATE. */
    uint32_t status;
    /* How many of the bytes are done with. The next call takes those after them. */
    size_t done;
    /* The packet, where there is one. */
    ep_captured_packet packet;
    /* Why and where it is refused, where it is. */
    ep_capture_error error;
} ep_captured;

/* How a capture ends. */
typedef struct {
    /* 0 where it is whole, 3 where it is cut off or was refused before, 4 where it isn't open:
       EP_DONE, EP_REFUSED or EP_WRONG_STATE. */
    uint32_t status;
    /* Why and where it is refused, where it is. */
    ep_capture_error error;
} ep_capture_ending;

/* Control flags of a TCP segment (RFC 9293, section 3.1). */
typedef struct {
    /* SYN: the sequence number is its own, and the payload begins at the next one. */
    bool syn;
    /* ACK. */
    bool ack;
    /* FIN: no byte comes after the payload. */
    bool fin;
    /* RST: the connection is reset, and the payload is no part of the stream. */
    bool rst;
} ep_segment_flags;

/* How far a connection came. Zeros are a connection of which no segment came. */
typedef struct {
    /* 0 unseen, 1 SYN sent, 2 SYN received, 3 established, 4 closing, 5 closed, 6 reset. */
    uint32_t state;
    /* Of 1 and 2: the direction of the endpoint that opens it, of 4 that of the FIN. Else 0. */
    uint32_t direction;
} ep_connection_state;

/* The extension headers of an IP packet that are left. */
typedef struct {
    /* Where they are. */
    ep_part left;
    /* The number of the first of them. */
    uint8_t next_header;
} ep_extensions;

/* An extension header of IPv6 (RFC 8200, section 4), or the authentication header of IPv4 (RFC
   4302). The fields of other kinds are 0. */
typedef struct {
    /* The header. */
    ep_part header;
    /* Of options and routing: what follows the first two bytes. Of authentication: the integrity
       check value. */
    ep_part payload;
    /* Which header it is, numbered as the layer of a refusal: EP_LAYER_IPV6_HOP_BY_HOP_HEADER,
       EP_LAYER_IPV6_DEST_OPTIONS_HEADER, EP_LAYER_IPV6_ROUTE_HEADER, EP_LAYER_IPV6_FRAG_HEADER or
       EP_LAYER_IP_AUTH_HEADER; 0 none, since none is left. */
    uint32_t layer;
    /* Of a fragment header: the identification, which the fragments of one datagram share. */
    uint32_t identification;
    /* Of authentication: the security parameters index. */
    uint32_t spi;
    /* Of authentication: the sequence number. */
    uint32_t sequence_number;
    /* Of a fragment header: the offset of the payload in the datagram, in units of 8 bytes. */
    uint16_t fragment_offset;
    /* Its number: 0 hop-by-hop options, 43 routing, 44 fragment, 51 authentication, 60 destination
       options. */
    uint8_t number;
    /* The number of what follows it. */
    uint8_t next_header;
    /* Of a fragment header: whether other fragments follow. */
    bool more_fragments;
} ep_extension;

/* The records of groups that are left in a report. */
typedef struct {
    /* Where they are. */
    ep_part left;
    /* How many of those that the report names aren't taken yet. */
    uint32_t count;
    /* Whether their addresses are of IPv6 and have 16 bytes, and not the 4 of IPv4. */
    bool is_ipv6;
} ep_group_records;

/* A message of a multicast group: of IGMP over IPv4 (RFC 2236; RFC 3376), or of multicast
   listener discovery over IPv6 (RFC 2710; RFC 3810). The fields of other kinds are 0. */
typedef struct {
    /* Of a query with sources: their addresses, of 4 or 16 bytes each; none: every source. */
    ep_part sources;
    /* Of a report of records: the records. */
    ep_group_records records;
    /* Of one that is too short: how many bytes it needs. */
    size_t needed;
    /* Of one that is too short: how many bytes it has. */
    size_t there;
    /* The kind, one of EP_GROUP_.. */
    uint32_t kind;
    /* Of a query: how long a host may wait with its report. Without sources: of IGMP in tenths of a
       second, 0: version 1; of MLD in milliseconds. With sources: as a code (RFC 3376, section
       4.1.1; RFC 3810, section 5.1.3). */
    uint16_t max_response;
    /* Of kinds 1 to 5: the address of the group, the first 4 bytes, or all 16 of IPv6. Of a query
       all zeros: every group. */
    uint8_t group[16];
} ep_group_message;

/* The record of a group in a report (RFC 3376, section 4.2.4; RFC 3810, section 5.2.5). What it
   doesn't have is 0. */
typedef struct {
    /* The record; of one that is cut off where it starts. */
    ep_part bytes;
    /* The addresses of its sources, of 4 or 16 bytes each. */
    ep_part sources;
    /* What follows them, of which neither standard defines any. */
    ep_part auxiliary_data;
    /* Of kind 2: how many bytes it needs: at first those before its sources, then all. */
    size_t needed;
    /* Of kind 2: how many bytes are left. */
    size_t there;
    /* 0 none, since none is left; 1 a record; 2 fewer bytes are left than a record needs: nothing is
       read after it. */
    uint32_t kind;
    /* Its type: 1 to 6 (RFC 3376, section 4.2.12). */
    uint8_t record_type;
    /* The address of the group: the first 4 bytes, or all 16 where it is of IPv6. */
    uint8_t group[16];
} ep_group_record;

/* What an ICMP message says beside its type and code, by its kind. The fields of other kinds are
   0. */
typedef struct {
    /* The kind, one of EP_ICMP_.. */
    uint32_t kind;
    /* Of a packet too big: the greatest packet in bytes that the next link takes. Also of a
       destination unreachable of ICMPv4 with code 4, where nodes that don't report it write 0. */
    uint32_t mtu;
    /* Of a parameter problem: the offset of the fault in the packet. With ICMPv4 only code 0 has
       one. */
    uint32_t pointer;
    /* Of timestamps: when the request was last touched by its sender, in milliseconds since midnight
       UT. */
    uint32_t originate_timestamp;
    /* Of timestamps: when the request was first touched by its receiver. */
    uint32_t receive_timestamp;
    /* Of timestamps: when the reply was last touched by its sender. */
    uint32_t transmit_timestamp;
    /* Of echoes and timestamps: the identifier, which the reply repeats. */
    uint16_t id;
    /* Of echoes and timestamps: the sequence number, which the reply repeats. */
    uint16_t sequence_number;
    /* Of a redirect: the address of the better gateway. */
    uint8_t gateway[4];
} ep_icmp_fields;

/* A message of neighbor discovery for IPv6 (RFC 4861, section 4). The fields of other types are
   0. */
typedef struct {
    /* Where its options start in the message. */
    size_t options_offset;
    /* Of a router advertisement: how long a neighbor is reachable after a confirmation, in
       milliseconds; 0: not given. */
    uint32_t reachable_time;
    /* Of a router advertisement: the time between repeated solicitations, in milliseconds; 0: not
       given. */
    uint32_t retrans_timer;
    /* Of a router advertisement: how long the router is a default router, in seconds; 0: it is none. */
    uint16_t router_lifetime;
    /* The type: 133 router solicitation, 134 router advertisement, 135 neighbor solicitation, 136
       neighbor advertisement, 137 redirect; 0 none of these, or too few bytes for it. */
    uint8_t icmp_type;
    /* Of a router advertisement: the hop limit for packets to send, 0 where the router gives none. */
    uint8_t hop_limit;
    /* Of a router advertisement: bit M: addresses are available by DHCPv6. */
    bool managed;
    /* Of a router advertisement: bit O: other configuration is available by DHCPv6. */
    bool other;
    /* Of a neighbor advertisement: bit R: the sender is a router. */
    bool router;
    /* Of a neighbor advertisement: bit S: it answers a solicitation. */
    bool solicited;
    /* Of a neighbor advertisement: bit O: it overrides the link-layer address that is cached. */
    bool overrides;
    /* Of neighbor solicitations and advertisements: the address whose link-layer address it is
       about; of a redirect: the better first hop. */
    uint8_t target[16];
    /* Of a redirect: the address whose packets go there. */
    uint8_t destination[16];
} ep_ndp;

/* A link header. The fields of other kinds are 0. */
typedef struct {
    /* 0 none, 1 Ethernet II, 2 a Linux cooked capture. */
    uint32_t kind;
    /* The ether type; in a cooked capture the protocol's number, whatever its kind. */
    uint16_t protocol;
    /* Of Ethernet II. */
    uint8_t destination[6];
    /* Of Ethernet II. */
    uint8_t source[6];
    /* Of a cooked capture: 0 to us, 1 broadcast, 2 multicast, 3 to others, 4 from us. */
    uint16_t packet_type;
    /* Of a cooked capture: the hardware type (ARPHRD). */
    uint16_t hardware_type;
    /* Of a cooked capture: how many bytes of the address are the sender's, as it states it. */
    uint16_t address_len;
    /* Of a cooked capture: the sender's address, and bytes without meaning after it. */
    uint8_t address[8];
} ep_link;

/* A tag between link header and packet. The fields of other kinds are 0. */
typedef struct {
    /* Where the tag itself is. */
    ep_part header;
    /* 0 none, 1 VLAN, 2 MACsec. */
    uint32_t kind;
    /* The ether type of what follows, 0 where a changed or encrypted MACsec payload follows. */
    uint16_t ether_type;
    /* Of VLAN: the identifier. */
    uint16_t vlan_id;
    /* Of VLAN: the priority code point. */
    uint8_t priority;
    /* Of VLAN: whether the frame may be dropped first. */
    bool drop_eligible;
    /* Of MACsec: bit ES. */
    bool end_station;
    /* Of MACsec: bit SCB. */
    bool single_copy_broadcast;
    /* Of MACsec: bit E. */
    bool encrypted;
    /* Of MACsec: bit C. */
    bool changed;
    /* Of MACsec: whether a channel identifier is there. */
    bool has_channel;
    /* Of MACsec: the association number. */
    uint8_t association;
    /* Of MACsec: the short length. */
    uint8_t short_len;
    /* Of MACsec: the packet number. */
    uint32_t packet_number;
    /* Of MACsec: the secure channel identifier. */
    uint64_t channel;
} ep_tag;

/* An IPv4 packet (RFC 791). Its options are the last bytes of its header. */
typedef struct {
    /* The header, options included. */
    ep_part header;
    /* The authentication header. */
    ep_part extensions;
    /* What follows it, without padding. */
    ep_part payload;
    /* The source address. */
    uint8_t source[4];
    /* The destination address. */
    uint8_t destination[4];
    /* The length of header and payload, as the header states it. */
    uint16_t total_len;
    /* The identification, which the fragments of one datagram share. */
    uint16_t identification;
    /* The offset of the payload in the datagram, in units of 8 bytes. */
    uint16_t fragment_offset;
    /* The header checksum, as the header states it. */
    uint16_t header_checksum;
    /* Differentiated services code point. */
    uint8_t dscp;
    /* Explicit congestion notification. */
    uint8_t ecn;
    /* Hops that are left. */
    uint8_t time_to_live;
    /* The number of what follows the header. */
    uint8_t protocol;
    /* The number of the payload, after an authentication header. */
    uint8_t payload_number;
    /* Whether the packet may not be fragmented. */
    bool dont_fragment;
    /* Whether other fragments follow. */
    bool more_fragments;
    /* Whether the payload is a fragment. */
    bool is_part;
} ep_ipv4;

/* An IPv6 packet (RFC 8200). */
typedef struct {
    /* The base header. */
    ep_part header;
    /* All extension headers. */
    ep_part extensions;
    /* What follows them, without padding. */
    ep_part payload;
    /* The source address. */
    uint8_t source[16];
    /* The destination address. */
    uint8_t destination[16];
    /* The flow label. */
    uint32_t flow_label;
    /* The identification, which the fragments of one datagram share, by the first fragment header. */
    uint32_t identification;
    /* The payload length, as the header states it. */
    uint16_t payload_length;
    /* The offset of the payload in the datagram, in units of 8 bytes, by the first fragment header. */
    uint16_t fragment_offset;
    /* The traffic class. */
    uint8_t traffic_class;
    /* The number of what follows the base header. */
    uint8_t next_header;
    /* Hops that are left. */
    uint8_t hop_limit;
    /* The number of the payload, after the extension headers. */
    uint8_t payload_number;
    /* Whether there is a fragment header. */
    bool has_fragment_header;
    /* Whether other fragments follow, by the first fragment header. */
    bool more_fragments;
    /* Whether the payload is a fragment. */
    bool is_part;
} ep_ipv6;

/* An ARP packet (RFC 826). */
typedef struct {
    /* The packet. */
    ep_part packet;
    /* The sender's hardware address. */
    ep_part sender_hardware;
    /* The sender's protocol address. */
    ep_part sender_protocol;
    /* The target's hardware address. */
    ep_part target_hardware;
    /* The target's protocol address. */
    ep_part target_protocol;
    /* The kind of hardware address. */
    uint16_t hardware_type;
    /* The kind of protocol address, an ether type. */
    uint16_t protocol_type;
    /* 1 request, 2 reply. */
    uint16_t operation;
} ep_arp;

/* A UDP datagram (RFC 768). */
typedef struct {
    /* The header. */
    ep_part header;
    /* What follows it. */
    ep_part payload;
    /* The source port. */
    uint16_t source_port;
    /* The destination port. */
    uint16_t destination_port;
    /* The length of header and payload, as the header states it; 0 in a jumbogram. */
    uint16_t stated_len;
    /* The checksum, as the header states it; 0 where none was sent. */
    uint16_t checksum;
} ep_udp;

/* A TCP segment (RFC 9293). Its options follow the first 20 bytes of the header. */
typedef struct {
    /* The header, options included. */
    ep_part header;
    /* What follows it. */
    ep_part payload;
    /* The sequence number. */
    uint32_t sequence_number;
    /* The acknowledgment number. */
    uint32_t acknowledgment_number;
    /* The source port. */
    uint16_t source_port;
    /* The destination port. */
    uint16_t destination_port;
    /* The window. */
    uint16_t window_size;
    /* The checksum, as the header states it. */
    uint16_t checksum;
    /* The urgent pointer. */
    uint16_t urgent_pointer;
    /* Flag NS (RFC 3540). */
    bool ns;
    /* Flag FIN. */
    bool fin;
    /* Flag SYN. */
    bool syn;
    /* Flag RST. */
    bool rst;
    /* Flag PSH. */
    bool psh;
    /* Flag ACK. */
    bool ack;
    /* Flag URG. */
    bool urg;
    /* Flag ECE. */
    bool ece;
    /* Flag CWR. */
    bool cwr;
} ep_tcp;

/* An ICMP message of either version (RFC 792; RFC 4443). */
typedef struct {
    /* The header: 20 bytes in ICMPv4's timestamp messages, else 8. */
    ep_part header;
    /* What follows it. */
    ep_part payload;
    /* The checksum, as the header states it. */
    uint16_t checksum;
    /* The type. */
    uint8_t icmp_type;
    /* The code. */
    uint8_t code;
    /* Bytes 4 to 7, whatever the type says of them. */
    uint8_t rest[4];
} ep_icmp;

/* The fields of a packet. Every [`EpPart`] counts from the start of the bytes that were passed.
   The fields of a layer that isn't there are 0, and all but `refusal` are where the packet is
   refused. */
typedef struct {
    /* Why the packet is refused. */
    ep_refusal refusal;
    /* The link header. */
    ep_link link;
    /* How many tags there are. */
    uint32_t tag_count;
    /* The tags after the link header, in their order. */
    ep_tag tags[3];
    /* The payload that the last ether type names. */
    ep_part ether_payload;
    /* The network layer: 0 none, 1 ARP, 4 IPv4, 6 IPv6. */
    uint32_t net;
    /* The transport layer: 0 none, or its number: 1 ICMPv4, 6 TCP, 17 UDP, 58 ICMPv6. */
    uint32_t transport;
    /* The packet, where it is one of IPv4. */
    ep_ipv4 ipv4;
    /* The packet, where it is one of IPv6. */
    ep_ipv6 ipv6;
    /* The packet, where it is one of ARP. */
    ep_arp arp;
    /* The message, where it is a UDP datagram. */
    ep_udp udp;
    /* The message, where it is a TCP segment. */
    ep_tcp tcp;
    /* The message, where it is one of ICMP. */
    ep_icmp icmp;
} ep_packet;

/* The fields of a packet as far as it is there, also where it was cut off or a header breaks its
   format. */
typedef struct {
    /* The layers that are there. Its `refusal` says why not even the first header can be read: the
       link header, or the IP header of a packet without one. Where a length field says more than is
       there, the payload ends with the bytes that were passed. Also where the total length of IPv4
       is less than its header, the payload is all that follows. A UDP length that doesn't fit isn't
       a fault here. So a packet without a stop of which nothing is missing may still be refused by
       `ep_slice_ethernet`. Where an extension header stopped the reading, the IP payload starts with
       it, and `payload_number` is its number. */
    ep_packet packet;
    /* Why the reading stopped before the end: the refusal of the first layer after these. All fields
       are 0 where it didn't stop. */
    ep_refusal stop;
    /* The layer that was being read when it stopped, numbered as the layer of a refusal: it says
       which extension header, where `stop.layer` is EP_LAYER_IPV6_EXT_HEADER. 0 where it didn't
       stop. */
    uint32_t stop_layer;
    /* Whether bytes are missing that the length field of IPv4, IPv6 or MACsec counts: bytes of the
       payload of `ipv4` or `ipv6`, or where neither is there, of what follows the tags. */
    bool incomplete;
} ep_lax_packet;

/* An option of neighbor discovery (RFC 4861, section 4.6; RFC 8106, section 5), or why the bytes
   are none. The fields of other kinds are 0. */
typedef struct {
    /* The option with its type and its length; of a fault where it starts. */
    ep_part option;
    /* What it carries. Of a link-layer address: the address, with what fills its last unit of 8
       bytes. Of a redirected header: the packet. Of recursive DNS servers: their addresses, of 16
       bytes each. Of a search list: names as labels, filled with zeros. Of an unknown one: what
       follows type and length. */
    ep_part carried;
    /* Of fault 1: how many bytes it needs. */
    size_t needed;
    /* Of fault 1: how many bytes are left. */
    size_t there;
    /* Which option it is, one of EP_NDP_OPTION_.. */
    uint32_t kind;
    /* 0 none; 1 fewer bytes are left than the option needs; 2 its length is 0. */
    uint32_t fault;
    /* Of recursive DNS servers and of a search list: how long they may be used, in seconds; all
       ones: for ever. */
    uint32_t lifetime;
    /* Of a prefix: how long it is on the link, in seconds; all ones: for ever. */
    uint32_t valid_lifetime;
    /* Of a prefix: how long addresses formed with it are preferred, in seconds; all ones: for ever. */
    uint32_t preferred_lifetime;
    /* Of an MTU: the link's greatest packet in bytes. */
    uint32_t mtu;
    /* The type; of a fault 0. */
    uint8_t option_type;
    /* Of a prefix: how many of its leading bits are valid, 0 to 128. */
    uint8_t prefix_length;
    /* Of a prefix: bit L: its addresses are on the link. */
    bool on_link;
    /* Of a prefix: bit A: a host may form an address with it. */
    bool autonomous;
    /* Of a prefix: the prefix, whose bits after `prefix_length` are to be ignored. */
    uint8_t prefix[16];
} ep_ndp_option;

/* One end of a TCP connection. */
typedef struct {
    /* The IP version: 4 or 6. */
    uint16_t version;
    /* The port. */
    uint16_t port;
    /* The address. One of IPv4 is filled up with 0 to 16 bytes. */
    uint8_t address[16];
} ep_endpoint;

/* What the segments of a TCP connection have in common, whichever way they go. There is no
   padding: keys are the same where their bytes are. */
typedef struct {
    /* The endpoint of the lower version, else of the lower address by its bytes, else of the lower
       port. */
    ep_endpoint lower;
    /* The other endpoint. */
    ep_endpoint higher;
    /* The caller's channel. */
    uint32_t channel;
    /* The identifiers of the VLAN tags, the outer one first. 0 where there are fewer. */
    uint16_t vlan_ids[3];
    /* How many VLAN tags there are, 0 to 3. */
    uint16_t vlan_count;
} ep_flow_key;

/* The key of a packet. */
typedef struct {
    /* 0 where there is one, 3 where the packet is refused, 6 where it has no TCP segment whose
       header is whole, or is a fragment. Where it isn't 0, all other fields are. */
    uint32_t status;
    /* In which direction the packet goes: 1 from the lower endpoint, 2 from the higher one. */
    uint32_t direction;
    /* The key. */
    ep_flow_key key;
} ep_packet_key;

/* The headers of a packet to build. The fields of headers that it doesn't have are ignored.
   Lengths, checksums, ether types and the numbers of headers follow from it. */
typedef struct {
    /* The link header: 0 none, 1 Ethernet II, 2 a Linux cooked capture of an Ethernet device. */
    uint32_t link;
    /* Of Ethernet II: the destination address. */
    uint8_t destination[6];
    /* Of Ethernet II: the source address. */
    uint8_t source[6];
    /* Of a cooked capture: 0 to us, 1 broadcast, 2 multicast, 3 to others, 4 from us. */
    uint16_t packet_type;
    /* Of a cooked capture: how many bytes of the address are the sender's. */
    uint16_t address_len;
    /* Of a cooked capture: the sender's address. */
    uint8_t address[8];
    /* How many VLAN tags follow an Ethernet II header: 0, 1 or 2. */
    uint32_t tag_count;
    /* The identifier of the first of them, 0 to 4095. */
    uint16_t outer_vlan_id;
    /* The identifier of the second one, 0 to 4095. */
    uint16_t inner_vlan_id;
    /* The priority of the first of them, 0 to 7 (IEEE 802.1Q, section 6.9.3). */
    uint8_t outer_priority;
    /* The priority of the second one, 0 to 7. */
    uint8_t inner_priority;
    /* Whether the first of them says that the frame may be dropped first. */
    bool outer_drop_eligible;
    /* Whether the second one says so. */
    bool inner_drop_eligible;
    /* The IP version: 4 or 6. */
    uint32_t ip_version;
    /* Of IPv4: the source address. */
    uint8_t ipv4_source[4];
    /* Of IPv4: the destination address. */
    uint8_t ipv4_destination[4];
    /* Of IPv6: the source address. */
    uint8_t ipv6_source[16];
    /* Of IPv6: the destination address. */
    uint8_t ipv6_destination[16];
    /* Of IPv4: how many bytes of options there are, at most 40, a multiple of 4. */
    size_t ipv4_options_len;
    /* Of IPv4: the options. */
    uint8_t ipv4_options[40];
    /* Of IPv4: the identification, which the fragments of one datagram share. */
    uint16_t identification;
    /* Of IPv4: the offset of the payload in the datagram, in units of 8 bytes, 0 to 8191. */
    uint16_t fragment_offset;
    /* Of IPv4: differentiated services code point, 0 to 63 (RFC 2474). */
    uint8_t dscp;
    /* Of IPv4: explicit congestion notification, 0 to 3 (RFC 3168). */
    uint8_t ecn;
    /* Of IPv4: whether the packet may be fragmented. Where it may not, don't-fragment is set. */
    bool may_fragment;
    /* Of IPv4: whether other fragments follow. */
    bool more_fragments;
    /* Of IPv6: the flow label, 0 to 1048575. */
    uint32_t flow_label;
    /* Of IPv6: the traffic class. Differentiated services code point are its upper 6 bits, explicit
       congestion notification the lower 2. */
    uint8_t traffic_class;
    /* How many hops it may take: time to live of IPv4, hop limit of IPv6. */
    uint8_t hops;
    /* Without a transport header: the number of the payload. */
    uint8_t payload_number;
    /* The transport header: 0 none, or its number: 1 ICMPv4, 6 TCP, 17 UDP, 58 ICMPv6. */
    uint32_t transport;
    /* Of UDP and TCP: the source port. */
    uint16_t source_port;
    /* Of UDP and TCP: the destination port. */
    uint16_t destination_port;
    /* Of ICMP: whether it is the reply to an echo request, and not the request. */
    bool is_reply;
    /* Of ICMP: the identifier of the echo. */
    uint16_t echo_id;
    /* Of ICMP: the number of the echo. */
    uint16_t echo_sequence;
    /* Of ICMP: whether it isn't an echo, but has the type, the code and the 4 bytes that follow
       here. */
    bool icmp_is_raw;
    /* Of ICMP that is no echo: its type. */
    uint8_t icmp_type;
    /* Of ICMP that is no echo: its code. */
    uint8_t icmp_code;
    /* Of ICMP that is no echo: the 4 bytes after the checksum. */
    uint8_t icmp_bytes[4];
    /* Of TCP: the sequence number. */
    uint32_t sequence_number;
    /* Of TCP: the acknowledgment number. */
    uint32_t acknowledgment_number;
    /* Of TCP: the window. */
    uint16_t window_size;
    /* Of TCP: the urgent pointer. */
    uint16_t urgent_pointer;
    /* Of TCP: flag NS: ECN nonce (RFC 3540). */
    bool ns;
    /* Of TCP: flag FIN: no more data. */
    bool fin;
    /* Of TCP: flag SYN: sequence numbers are synchronized. */
    bool syn;
    /* Of TCP: flag RST: the connection is reset. */
    bool rst;
    /* Of TCP: flag PSH: push. */
    bool psh;
    /* Of TCP: flag ACK: the acknowledgment number counts. */
    bool ack;
    /* Of TCP: flag URG: the urgent pointer counts. */
    bool urg;
    /* Of TCP: flag ECE: ECN echo. */
    bool ece;
    /* Of TCP: flag CWR: congestion window reduced. */
    bool cwr;
    /* Of TCP: how many bytes of options there are, at most 40. */
    size_t options_len;
    /* Of TCP: the options. They are padded with 0 to whole words of 4 bytes. */
    uint8_t options[40];
} ep_plan;

/* The extension headers of a packet to build (RFC 8200, section 4; RFC 4302). They are written
   in the order of RFC 8200, section 4.1: hop-by-hop options, destination options, routing,
   fragment, authentication, destination options. Over IPv4 there is authentication alone. A part
   of options or routing is what follows the first two bytes of the header: 6 bytes and a
   multiple of 8, at most 2046; no bytes stand for no header. Numbers and lengths of headers
   follow from it. */
typedef struct {
    /* Hop-by-hop options. */
    ep_part hop_by_hop_options;
    /* Destination options before a routing header, or where there is none. */
    ep_part destination_options;
    /* The routing header. */
    ep_part routing;
    /* Destination options after the routing header, without which they are refused. */
    ep_part final_destination_options;
    /* Of authentication: the integrity check value, a multiple of 4 bytes, at most 1016. */
    ep_part integrity_check_value;
    /* Of a fragment header: the identification, which the fragments of one datagram share. */
    uint32_t identification;
    /* Of authentication: the security parameters index. */
    uint32_t spi;
    /* Of authentication: the sequence number. */
    uint32_t sequence_number;
    /* Of a fragment header: the offset of the payload in the datagram, in units of 8 bytes, 0 to
       8191. */
    uint16_t fragment_offset;
    /* Of a fragment header: whether other fragments follow. */
    bool more_fragments;
    /* Whether there is a fragment header. */
    bool has_fragment_header;
    /* Whether there is an authentication header. */
    bool has_authentication;
} ep_planned_extensions;

/* A pool that reassembles datagrams. It starts as zeros, and only these calls change it. */
typedef struct {
    /* Whether it was opened and not freed. */
    bool is_open;
    /* For these calls alone. */
    void *held;
} ep_pool;

/* The bytes that one end of a TCP connection sent, put together as its segments come. Positions
   count from 0, the number after that of SYN or, where SYN wasn't seen, that of the first
   segment. It starts as zeros, and only these calls change it. */
typedef struct {
    /* Whether it was opened and not freed. */
    bool is_open;
    /* For these calls alone. */
    void *held;
} ep_stream;

/* Positions at which a segment has another byte than one before it. The first byte stays. */
typedef struct {
    /* How many there are, UINT64_MAX at most. */
    uint64_t count;
    /* The one that was found first, 0 where there is none. */
    uint64_t first;
} ep_conflicts;

/* What became of a segment that a stream was given. */
typedef struct {
    /* 0 where it is accepted, 2 out of memory, 3 where it is refused, 4 where the stream isn't open.
       Where it isn't 0, nothing changed. */
    uint32_t status;
    /* Why it is refused: 1 it ends after the window, 2 it has a byte or FIN after FIN, or its FIN
       stands before a byte or FIN, 3 the connection was reset. Else 0. */
    uint32_t refusal;
    /* Of refusal 1: the position after the window. Of 2: that of the FIN that stands before the
       other. Else 0. */
    uint64_t refused_at;
    /* The position of its first byte, those before the ones that are held left out. 0 where it isn't
       accepted. */
    uint64_t position;
    /* The positions of its bytes that differ from those that are held. */
    ep_conflicts conflicts;
} ep_stream_added;

/* Positions whose bytes are missing. Both are 0 where there is no gap. */
typedef struct {
    /* The first of them. */
    uint64_t start;
    /* The position after the last one. */
    uint64_t end;
} ep_gap;

/* How far a stream came. All fields are 0 where it isn't open. */
typedef struct {
    /* How many bytes can be read: those that follow the ones that were read, up to the first that is
       missing. */
    size_t available;
    /* How many bytes were read. */
    uint64_t consumed;
    /* The first positions whose bytes are missing, if bytes after them are held. */
    ep_gap gap;
    /* The conflicts of all segments. */
    ep_conflicts conflicts;
    /* Whether all bytes before FIN came. */
    bool is_finished;
    /* Whether the connection was reset. */
    bool is_reset;
    /* Whether the first segment that came had no SYN: bytes before it may be missing. */
    bool joined_late;
} ep_stream_progress;

/* A block of bytes that arrived after a gap (RFC 2018, section 3). */
typedef struct {
    /* The sequence number of its first byte. */
    uint32_t left_edge;
    /* The sequence number of the byte after its last one. */
    uint32_t right_edge;
} ep_tcp_block;

/* An option of a TCP header, or why the bytes are none. The fields of other kinds are 0. */
typedef struct {
    /* Of kind 5: the blocks, of which `block_count` are there. */
    ep_tcp_block blocks[4];
    /* Of fault 1: how many bytes are left. */
    size_t there;
    /* Of kind 8: the sender's clock. */
    uint32_t timestamp;
    /* Of kind 8: the clock value that it replies to. */
    uint32_t echoed_timestamp;
    /* 0 none; 1 fewer bytes are left than the option needs; 2 its length byte isn't one that its
       kind has; 3 the kind is unknown. After a fault nothing is read. */
    uint32_t fault;
    /* Of kind 5: how many blocks there are, 1 to 4. */
    uint32_t block_count;
    /* Of kind 2: the greatest segment that the sender takes. */
    uint16_t maximum_segment_size;
    /* The kind of the option: 0 none, since the list has ended; 1 no operation, 2 maximum segment
       size, 3 window scale, 4 selective acknowledgements are permitted, 5 a selective
       acknowledgement, 8 timestamps. Of a fault any but 0. */
    uint8_t kind;
    /* Of kind 3: by how many bits window sizes are shifted. */
    uint8_t window_scale;
    /* Of fault 1: how many bytes it needs. */
    uint8_t needed;
    /* Of fault 2: its length byte. */
    uint8_t stated_len;
} ep_tcp_option;

/* The header of a pcap file. */
typedef struct {
    /* Its bytes. */
    uint8_t bytes[24];
} ep_file_header;

/* The head of a packet record of a pcap file, which the captured bytes of the packet follow. */
typedef struct {
    /* Its bytes. */
    uint8_t bytes[16];
} ep_record_head;

/* Builds the packet of a plan with this payload, at the start of the output. The status is 0
   where it is built, 1 where the output is shorter than the packet, 2 where there is no memory,
   and 3 where a field of the plan, or the payload, is refused. Where it isn't 0 the output is as
   it was. */
ep_built ep_build(const ep_plan *plan, const uint8_t *payload, size_t payload_len, uint8_t *output, size_t output_len);

/* The same with these extension headers, whose parts are in these bytes. A part that isn't whole
   within the bytes is refused, as one of a length that no header states. */
ep_built ep_build_with_extensions(const ep_plan *plan, const ep_planned_extensions *extensions, const uint8_t *bytes, size_t bytes_len, const uint8_t *payload, size_t payload_len, uint8_t *output, size_t output_len);

/* Builds the packet of a plan that holds an ARP packet in place of one of IP, at the start of
   the output; of the plan it reads the link header and its tags. The types, the operation and
   the addresses are those of `arp`, the addresses parts of these bytes: of one length for both
   ends, at most 255. The status is that of `ep_build`. Where it isn't 0 the output is as it was. */
ep_built ep_build_arp(const ep_plan *plan, const ep_arp *arp, const uint8_t *bytes, size_t bytes_len, uint8_t *output, size_t output_len);

/* Opens a capture file, pcap or pcapng, before its first byte. A packet that can't be given,
   since it has no Ethernet frame or is too long, ends it or, where `skips`, is passed over. The
   result is 0 where it is open, 2 where there is no memory, and 4 where it was open before.
   Where it isn't 0 nothing is changed. */
uint32_t ep_capture_new(ep_capture *capture, bool skips);

/* The first packet of these bytes, or why none can follow. The first call is passed the first
   bytes of the file, and each other one those that weren't done with and what follows them.
   Where the status is 7 more bytes have to be passed, in a buffer of 262,144 bytes at most;
   where there are none, ep_capture_end says how the capture ends. Once it is refused, each call
   returns the same. */
ep_captured ep_capture_next(ep_capture *capture, const uint8_t *bytes, size_t bytes_len);

/* How a capture ends, where ep_capture_next needs more bytes and these are the last: those that
   weren't done with. */
ep_capture_ending ep_capture_end(ep_capture *capture, const uint8_t *bytes, size_t bytes_len);

/* Frees what a capture holds. One that isn't open stays as it is. */
void ep_capture_free(ep_capture *capture);

/* The header of a pcap file of Ethernet frames, with times in microseconds or nanoseconds:
   version 2.4, the low byte of each number first, a snap length of 262,144. */
ep_file_header ep_capture_file_header(bool nanoseconds);

/* The head of a packet record of such a file: its time, in seconds since 1970 and microseconds
   or nanoseconds, how many bytes of the frame follow, and how many it had on the wire. */
ep_record_head ep_capture_record_head(uint32_t seconds, uint32_t fraction, uint32_t len, uint32_t wire_len);

/* The checksum of the bytes, as a header has it, high byte first. */
uint16_t ep_checksum(const uint8_t *bytes, size_t bytes_len);

/* Whether the words of the bytes sum to all ones, as those of bytes with a right checksum do. */
bool ep_checksum_is_right(const uint8_t *bytes, size_t bytes_len);

/* Where the options of the packet's TCP header are. All fields are 0 where it has none. */
ep_part ep_tcp_options(const ep_packet *packet);

/* Takes the next option from those that are left in a part of the bytes, which begins as the
   part that `ep_tcp_options` returns. Each call returns one, in their order, and takes its bytes
   from the part. `kind` is 0 where none is left: at the end of the list, or after a fault. */
ep_tcp_option ep_tcp_option_next(const uint8_t *bytes, size_t bytes_len, ep_part *left);

/* Where the options of the packet's IPv4 header are. All fields are 0 where it has none. */
ep_part ep_ipv4_options(const ep_packet *packet);

/* The extension headers of the packet, where it is one of IP: the authentication header of IPv4,
   or all of IPv6. All fields are 0 where it is another. */
ep_extensions ep_ip_extensions(const ep_packet *packet);

/* Takes the next header from those that are left in a part of the bytes, which begin as those
   that `ep_ip_extensions` returns. Each call returns one, in their order, and takes it from
   those that are left. `layer` is 0 where none is left: where the number names no extension
   header, or the bytes don't start with a whole one. */
ep_extension ep_extension_next(const uint8_t *bytes, size_t bytes_len, ep_extensions *left);

/* What an ICMPv4 message says beside its type and code: the bytes of a packet from the header of
   the message on, header and payload. */
ep_icmp_fields ep_icmpv4_fields(const uint8_t *message, size_t message_len);

/* The same of an ICMPv6 message. One of neighbor discovery is EP_ICMP_UNKNOWN. */
ep_icmp_fields ep_icmpv6_fields(const uint8_t *message, size_t message_len);

/* The message of neighbor discovery that an ICMPv6 message is. `icmp_type` is 0 where it is
   none. */
ep_ndp ep_ndp_message(const uint8_t *message, size_t message_len);

/* Where the options of a message of neighbor discovery are in its bytes. All fields are 0 where
   the bytes are none. */
ep_part ep_ndp_options(const uint8_t *message, size_t message_len);

/* Takes the next option of neighbor discovery from those that are left in a part of the bytes,
   which begins as the part that `ep_ndp_options` returns. Each call returns one, in their order,
   and takes its bytes from the part. `kind` is 0 where none is left: at the end of the bytes, or
   after a fault. */
ep_ndp_option ep_ndp_option_next(const uint8_t *bytes, size_t bytes_len, ep_part *left);

/* The message of IGMP that these bytes are: the payload of an IPv4 packet of protocol 2. `kind`
   is 0 where they are of no known type. */
ep_group_message ep_igmp_message(const uint8_t *message, size_t message_len);

/* The message of multicast listener discovery that an ICMPv6 message is, header and payload.
   `kind` is 0 where it is none. */
ep_group_message ep_mld_message(const uint8_t *message, size_t message_len);

/* Takes the next record from those that are left in a part of the bytes, which begin as the
   records of the message that these bytes are. Each call returns one, in their order, and takes
   it from those that are left. `kind` is 0 where none is left: after as many as the report
   names, or after one that is cut off. */
ep_group_record ep_group_record_next(const uint8_t *bytes, size_t bytes_len, ep_group_records *left);

/* Opens a pool without fragments. The result is 0 where it is open, 2 where there is no memory,
   and 4 where it was open before. Where it isn't 0 nothing is changed. */
uint32_t ep_pool_new(ep_pool *pool);

/* Takes an Ethernet II frame, which came at this time on this channel. Fragments of different
   channels belong to different datagrams. The status is 5 where a message is complete with it:
   then the output starts with the message. It is 1 where the output is shorter than the message:
   then the pool keeps it until `ep_pool_take` returns it. It is 0 where no message is complete,
   since the frame is no fragment, or its datagram waits for others. It is 2 where there is no
   memory for the fragment, and 3 where the frame or the fragment is refused: then all
   reassemblies are as they were, but that of a fragment of refusal 4 is dropped. It is 4 where
   the pool isn't open or keeps a message: then nothing is changed. */
ep_added ep_pool_add(ep_pool *pool, const uint8_t *frame, size_t frame_len, uint64_t time, uint32_t channel, uint8_t *output, size_t output_len);

/* Takes a packet of a Linux cooked capture, as `ep_pool_add` takes a frame. One pool may take
   frames, cooked captures and IP packets. Fragments belong together whatever they came in, if
   channel and VLAN identifiers are the same; an IP packet has none. */
ep_added ep_pool_add_linux_sll(ep_pool *pool, const uint8_t *packet, size_t packet_len, uint64_t time, uint32_t channel, uint8_t *output, size_t output_len);

/* Takes an IP packet of either version, as `ep_pool_add` takes a frame. */
ep_added ep_pool_add_ip(ep_pool *pool, const uint8_t *packet, size_t packet_len, uint64_t time, uint32_t channel, uint8_t *output, size_t output_len);

/* Returns the message that a pool keeps. The status is 5 where the output starts with it, 1
   where the output is shorter than the message, and 4 where the pool isn't open or keeps none. */
ep_added ep_pool_take(ep_pool *pool, uint8_t *output, size_t output_len);

/* Drops the reassemblies whose last fragment came before this time. The result is 0, or 4 where
   the pool isn't open. */
uint32_t ep_pool_forget_before(ep_pool *pool, uint64_t time);

/* How many datagrams are not complete, 0 where the pool isn't open. A complete message isn't
   counted. */
size_t ep_pool_open(ep_pool *pool);

/* Frees a pool and all that it holds. One that isn't open stays as it is. */
void ep_pool_free(ep_pool *pool);

/* Gives the parts of an Ethernet II frame, or why it is refused. */
ep_packet ep_slice_ethernet(const uint8_t *bytes, size_t bytes_len);

/* Gives the parts of a packet of a Linux cooked capture, or why it is refused. */
ep_packet ep_slice_linux_sll(const uint8_t *bytes, size_t bytes_len);

/* Gives the parts of an IP packet of either version, or why it is refused. */
ep_packet ep_slice_ip(const uint8_t *bytes, size_t bytes_len);

/* Gives the parts of an Ethernet II frame as far as they are there, and what stopped the
   reading. Only a frame shorter than its link header is refused. */
ep_lax_packet ep_slice_ethernet_lax(const uint8_t *bytes, size_t bytes_len);

/* Gives the parts of a packet of a Linux cooked capture as far as they are there, and what
   stopped the reading. Only a packet without a whole link header of a known packet type is
   refused. */
ep_lax_packet ep_slice_linux_sll_lax(const uint8_t *bytes, size_t bytes_len);

/* Gives the parts of an IP packet of either version as far as they are there, and what stopped
   the reading. Only a packet without a whole IP header of a right version and header length is
   refused. */
ep_lax_packet ep_slice_ip_lax(const uint8_t *bytes, size_t bytes_len);

/* Opens a stream without segments, one direction of a TCP connection, with a window of so many
   bytes: it holds no more than these. The result is 0 where it is open, 2 where there is no
   memory, and 4 where it was open before. Where it isn't 0 nothing is changed. */
uint32_t ep_stream_new(ep_stream *stream, size_t window);

/* Takes a segment, in any order: the bytes of its payload for which none is held yet, and its
   flags. The first byte that came for a position stays; where another one comes, the position
   counts as a conflict. The status is 0 where it is accepted, 2 where there is no memory for it,
   3 where it is refused, and 4 where the stream isn't open. Where it isn't 0 nothing is changed.
   The refusals are tested in the order of their numbers. */
ep_stream_added ep_stream_add(ep_stream *stream, uint32_t sequence_number, const ep_segment_flags *flags, const uint8_t *payload, size_t payload_len);

/* Writes the next bytes of a stream to the start of the output, and takes them away: all that
   are available, or as many as the output has. The result is how many, 0 where the stream isn't
   open. */
size_t ep_stream_read(ep_stream *stream, uint8_t *output, size_t output_len);

/* How far a stream came. All fields are 0 where it isn't open. */
ep_stream_progress ep_stream_progress_of(ep_stream *stream);

/* Frees a stream and all that it holds. One that isn't open stays as it is. */
void ep_stream_free(ep_stream *stream);

/* The key of the TCP connection to which an Ethernet II frame belongs, which came on this
   channel, and the frame's direction. The destination is that in the IP header. */
ep_packet_key ep_flow_key_ethernet(const uint8_t *frame, size_t frame_len, uint32_t channel);

/* That of a packet of a Linux cooked capture. */
ep_packet_key ep_flow_key_linux_sll(const uint8_t *packet, size_t packet_len, uint32_t channel);

/* That of an IP packet of either version. */
ep_packet_key ep_flow_key_ip(const uint8_t *packet, size_t packet_len, uint32_t channel);

/* How far a connection came after one more segment, which has these flags and goes in this
   direction: 2 from the higher endpoint, any other number from the lower one. */
ep_connection_state ep_connection_state_after(const ep_connection_state *state, uint32_t direction, const ep_segment_flags *flags);

/* The verdict on the message in an Ethernet II frame: 0 no checksum, 1 a right one, 2 a wrong
   one, 3 no whole message that can be read. */
uint32_t ep_verdict_ethernet(const uint8_t *bytes, size_t bytes_len);

/* That in a packet of a Linux cooked capture, numbered as by `ep_verdict_ethernet`. */
uint32_t ep_verdict_linux_sll(const uint8_t *bytes, size_t bytes_len);

/* That in an IP packet of either version, numbered as by `ep_verdict_ethernet`. */
uint32_t ep_verdict_ip(const uint8_t *bytes, size_t bytes_len);

#ifdef __cplusplus
}
#endif
#endif
