//! The exports and their structs. Written by `tools/bindings`.
#![allow(dead_code)]

/// More bytes of a capture have to follow, or it ends.
pub const MORE_BYTES: u32 = 7;
/// From the lower endpoint to the higher one.
pub const FROM_LOWER: u32 = 1;
/// From the higher endpoint to the lower one.
pub const FROM_HIGHER: u32 = 2;
/// No segment of the connection came.
pub const STATE_UNSEEN: u32 = 0;
/// The endpoint that opens it sent SYN.
pub const STATE_SYN_SENT: u32 = 1;
/// The other endpoint answered with SYN, and the first one didn't acknowledge that.
pub const STATE_SYN_RECEIVED: u32 = 2;
/// Both endpoints may send.
pub const STATE_ESTABLISHED: u32 = 3;
/// One endpoint sent FIN.
pub const STATE_CLOSING: u32 = 4;
/// Both endpoints sent FIN.
pub const STATE_CLOSED: u32 = 5;
/// An endpoint sent RST before both sent FIN.
pub const STATE_RESET: u32 = 6;
/// No message of a multicast group.
pub const GROUP_NONE: u32 = 0;
/// A query without sources: version 1 of MLD, 1 or 2 of IGMP.
pub const GROUP_QUERY: u32 = 1;
/// A query that may name sources: version 2 of MLD, 3 of IGMP.
pub const GROUP_QUERY_WITH_SOURCES: u32 = 2;
/// A report of version 1: of one group.
pub const GROUP_REPORT: u32 = 3;
/// Of IGMP: a report of version 2: of one group.
pub const GROUP_REPORT_V2: u32 = 4;
/// A group is left.
pub const GROUP_LEAVE: u32 = 5;
/// A report of records: version 2 of MLD, 3 of IGMP.
pub const GROUP_RECORDS: u32 = 6;
/// A message that is shorter than its type needs.
pub const GROUP_TOO_SHORT: u32 = 7;
/// No message, since there are too few bytes, or not the 20 of a timestamp message.
pub const ICMP_NONE: u32 = 0;
/// A type and code that have no other kind.
pub const ICMP_UNKNOWN: u32 = 1;
/// An echo request.
pub const ICMP_ECHO_REQUEST: u32 = 2;
/// The reply to one.
pub const ICMP_ECHO_REPLY: u32 = 3;
/// A packet couldn't be delivered.
pub const ICMP_DESTINATION_UNREACHABLE: u32 = 4;
/// Of ICMPv4: another gateway is the better one.
pub const ICMP_REDIRECT: u32 = 5;
/// A packet or its fragments took too long.
pub const ICMP_TIME_EXCEEDED: u32 = 6;
/// A packet's header has a fault.
pub const ICMP_PARAMETER_PROBLEM: u32 = 7;
/// Of ICMPv4: a request for the receiver's time.
pub const ICMP_TIMESTAMP_REQUEST: u32 = 8;
/// Of ICMPv4: the reply to one.
pub const ICMP_TIMESTAMP_REPLY: u32 = 9;
/// Of ICMPv6: a packet is bigger than the next link takes.
pub const ICMP_PACKET_TOO_BIG: u32 = 10;
/// It is done, or there was nothing to do.
pub const DONE: u32 = 0;
/// The output is too short.
pub const NO_ROOM: u32 = 1;
/// Out of memory.
pub const NO_MEMORY: u32 = 2;
/// A packet, a fragment, a segment, a field of a plan, a payload or a capture is refused.
pub const REFUSED: u32 = 3;
/// The pool, stream or capture isn't open, or is open already, or the pool keeps a message.
pub const WRONG_STATE: u32 = 4;
/// A message is complete.
pub const COMPLETED: u32 = 5;
/// No option is left.
pub const NDP_OPTION_NONE: u32 = 0;
/// An option of another type, or of a length that its type doesn't have.
pub const NDP_OPTION_UNKNOWN: u32 = 1;
/// The sender's link-layer address.
pub const NDP_OPTION_SOURCE_LINK_LAYER_ADDRESS: u32 = 2;
/// The target's link-layer address.
pub const NDP_OPTION_TARGET_LINK_LAYER_ADDRESS: u32 = 3;
/// A prefix.
pub const NDP_OPTION_PREFIX_INFORMATION: u32 = 4;
/// The start of the packet that is redirected.
pub const NDP_OPTION_REDIRECTED_HEADER: u32 = 5;
/// The link's greatest packet.
pub const NDP_OPTION_MTU: u32 = 6;
/// Recursive DNS servers.
pub const NDP_OPTION_RECURSIVE_DNS_SERVER: u32 = 7;
/// Domains in which names are searched.
pub const NDP_OPTION_DNS_SEARCH_LIST: u32 = 8;
/// No option: `fault` says why, and nothing is read after it.
pub const NDP_OPTION_FAULT: u32 = 9;
/// A packet that has no TCP segment whose header is whole, or is a fragment.
pub const NO_SEGMENT: u32 = 6;
/// Nothing is refused.
pub const REFUSAL_NONE: u32 = 0;
/// A layer has too few bytes.
pub const REFUSAL_TOO_FEW_BYTES: u32 = 1;
/// A packet type of a Linux cooked capture above 4.
pub const REFUSAL_LINUX_SLL_PACKET_TYPE: u32 = 2;
/// A hardware type of a Linux cooked capture that isn't read; all are today.
pub const REFUSAL_LINUX_SLL_HARDWARE_TYPE: u32 = 3;
/// A MACsec version other than 0.
pub const REFUSAL_MACSEC_VERSION: u32 = 4;
/// A MACsec short length below that of the ether type.
pub const REFUSAL_MACSEC_SHORT_LEN: u32 = 5;
/// An IP version other than 4 and 6.
pub const REFUSAL_IP_VERSION: u32 = 6;
/// An IP version other than 4 where the ether type names IPv4.
pub const REFUSAL_IPV4_VERSION: u32 = 7;
/// A length of an IPv4 header (IHL) below 5.
pub const REFUSAL_IPV4_HEADER_LEN: u32 = 8;
/// An IP version other than 6 where the ether type names IPv6.
pub const REFUSAL_IPV6_VERSION: u32 = 9;
/// A payload length 0 of an authentication header.
pub const REFUSAL_AUTH_HEADER_LEN: u32 = 10;
/// Hop-by-hop options after another extension header.
pub const REFUSAL_HOP_BY_HOP_NOT_AT_START: u32 = 11;
/// A TCP data offset below 5.
pub const REFUSAL_TCP_DATA_OFFSET: u32 = 12;
/// A segment that ends after the window.
pub const SEGMENT_OUTSIDE_WINDOW: u32 = 1;
/// A segment with a byte or FIN after FIN, or whose FIN stands before a byte or FIN.
pub const SEGMENT_AFTER_FIN: u32 = 2;
/// A segment after the connection was reset.
pub const SEGMENT_AFTER_RESET: u32 = 3;
/// No such link header, or none before an ARP packet.
pub const FIELD_LINK: u32 = 1;
/// A packet type of a cooked capture above 4.
pub const FIELD_PACKET_TYPE: u32 = 2;
/// More than two tags, or tags without an Ethernet II header.
pub const FIELD_TAG_COUNT: u32 = 3;
/// An identifier of the first tag above 4095.
pub const FIELD_OUTER_VLAN_ID: u32 = 4;
/// A priority of the first tag above 7.
pub const FIELD_OUTER_PRIORITY: u32 = 5;
/// An identifier of the second tag above 4095.
pub const FIELD_INNER_VLAN_ID: u32 = 6;
/// A priority of the second tag above 7.
pub const FIELD_INNER_PRIORITY: u32 = 7;
/// No such IP version.
pub const FIELD_IP_VERSION: u32 = 8;
/// A differentiated services code point above 63.
pub const FIELD_DSCP: u32 = 9;
/// An explicit congestion notification above 3.
pub const FIELD_ECN: u32 = 10;
/// An offset of a fragment over IPv4 above 8191.
pub const FIELD_FRAGMENT_OFFSET: u32 = 11;
/// More than 40 bytes of IPv4's options, or no whole words of 4.
pub const FIELD_IPV4_OPTIONS_LEN: u32 = 12;
/// A flow label above 1048575.
pub const FIELD_FLOW_LABEL: u32 = 13;
/// Hop-by-hop options of a length that no header states, not within the bytes, or over IPv4.
pub const FIELD_HOP_BY_HOP_OPTIONS: u32 = 14;
/// The same of destination options before a routing header.
pub const FIELD_DESTINATION_OPTIONS: u32 = 15;
/// The same of a routing header.
pub const FIELD_ROUTING: u32 = 16;
/// A fragment header whose offset is above 8191, or over IPv4.
pub const FIELD_FRAGMENT_HEADER: u32 = 17;
/// An integrity check value of a length that no header states, or not within the bytes.
pub const FIELD_AUTHENTICATION: u32 = 18;
/// The same as of destination options, of those after a routing header, or no routing header.
pub const FIELD_FINAL_DESTINATION_OPTIONS: u32 = 19;
/// No such transport header, or ICMPv6 over IPv4.
pub const FIELD_TRANSPORT: u32 = 20;
/// More than 40 bytes of TCP's options.
pub const FIELD_OPTIONS_LEN: u32 = 21;
/// Hardware addresses that differ in length, have more than 255 bytes, or aren't within the bytes.
pub const FIELD_HARDWARE_ADDRESSES: u32 = 22;
/// The same of protocol addresses.
pub const FIELD_PROTOCOL_ADDRESSES: u32 = 23;
/// A payload that is longer than the length field of the IP header can state.
pub const FIELD_PAYLOAD: u32 = 24;
/// The layer `linux sll header`.
pub const LAYER_LINUX_SLL_HEADER: u32 = 1;
/// The layer `ethernet2 header`.
pub const LAYER_ETHERNET2_HEADER: u32 = 2;
/// The layer `ether payload`.
pub const LAYER_ETHER_PAYLOAD: u32 = 3;
/// The layer `vlan header`.
pub const LAYER_VLAN_HEADER: u32 = 4;
/// The layer `macsec header`.
pub const LAYER_MACSEC_HEADER: u32 = 5;
/// The layer `macsec packet`.
pub const LAYER_MACSEC_PACKET: u32 = 6;
/// The layer `ip header`.
pub const LAYER_IP_HEADER: u32 = 7;
/// The layer `ipv4 header`.
pub const LAYER_IPV4_HEADER: u32 = 8;
/// The layer `ipv4 packet`.
pub const LAYER_IPV4_PACKET: u32 = 9;
/// The layer `ip auth header`.
pub const LAYER_IP_AUTH_HEADER: u32 = 10;
/// The layer `ipv6 header`.
pub const LAYER_IPV6_HEADER: u32 = 11;
/// The layer `ipv6 packet`.
pub const LAYER_IPV6_PACKET: u32 = 12;
/// The layer `ipv6 ext header`.
pub const LAYER_IPV6_EXT_HEADER: u32 = 13;
/// The layer `ipv6 hop by hop header`.
pub const LAYER_IPV6_HOP_BY_HOP_HEADER: u32 = 14;
/// The layer `ipv6 dest options header`.
pub const LAYER_IPV6_DEST_OPTIONS_HEADER: u32 = 15;
/// The layer `ipv6 route header`.
pub const LAYER_IPV6_ROUTE_HEADER: u32 = 16;
/// The layer `ipv6 frag header`.
pub const LAYER_IPV6_FRAG_HEADER: u32 = 17;
/// The layer `udp header`.
pub const LAYER_UDP_HEADER: u32 = 18;
/// The layer `udp payload`.
pub const LAYER_UDP_PAYLOAD: u32 = 19;
/// The layer `tcp header`.
pub const LAYER_TCP_HEADER: u32 = 20;
/// The layer `icmpv4`.
pub const LAYER_ICMPV4: u32 = 21;
/// The layer `icmpv4 timestamp`.
pub const LAYER_ICMPV4_TIMESTAMP: u32 = 22;
/// The layer `icmpv4 timestamp reply`.
pub const LAYER_ICMPV4_TIMESTAMP_REPLY: u32 = 23;
/// The layer `icmpv6`.
pub const LAYER_ICMPV6: u32 = 24;
/// The layer `arp`.
pub const LAYER_ARP: u32 = 25;
/// The length comes from: slice.
pub const SOURCE_SLICE: u32 = 1;
/// The length comes from: macsec short length.
pub const SOURCE_MACSEC_SHORT_LENGTH: u32 = 2;
/// The length comes from: ipv4 header total len.
pub const SOURCE_IPV4_HEADER_TOTAL_LEN: u32 = 3;
/// The length comes from: ipv6 header payload len.
pub const SOURCE_IPV6_HEADER_PAYLOAD_LEN: u32 = 4;
/// The length comes from: udp header len.
pub const SOURCE_UDP_HEADER_LEN: u32 = 5;
/// The length comes from: tcp header len.
pub const SOURCE_TCP_HEADER_LEN: u32 = 6;
/// The length comes from: arp addr lengths.
pub const SOURCE_ARP_ADDR_LENGTHS: u32 = 7;
/// The answers are written.
pub const NETLINES_ANSWERED: u32 = 0;
/// The output is too short for the answers.
pub const NETLINES_NO_ROOM: u32 = 1;
/// Out of memory.
pub const NETLINES_NO_MEMORY: u32 = 2;
/// The session isn't open, or its text has ended, or it is open already.
pub const NETLINES_WRONG_STATE: u32 = 3;

/// The layers' names, from number 1 on.
pub(crate) const LAYER_NAMES: [&str; 25] = [
    "linux sll header",
    "ethernet2 header",
    "ether payload",
    "vlan header",
    "macsec header",
    "macsec packet",
    "ip header",
    "ipv4 header",
    "ipv4 packet",
    "ip auth header",
    "ipv6 header",
    "ipv6 packet",
    "ipv6 ext header",
    "ipv6 hop by hop header",
    "ipv6 dest options header",
    "ipv6 route header",
    "ipv6 frag header",
    "udp header",
    "udp payload",
    "tcp header",
    "icmpv4",
    "icmpv4 timestamp",
    "icmpv4 timestamp reply",
    "icmpv6",
    "arp",
];

/// Why a packet is refused. All fields are 0 where it isn't.
#[repr(C)]
#[derive(Clone, Copy, Debug, PartialEq, Eq)]
pub struct EpRefusal {
    /// Which of the refusals it is: 0 none, 1 too few bytes, and from 2 on a header that breaks its
    /// format.
    pub kind: u32,
    /// The layer at fault, numbered from 1 as the errors of `etherparse` name the layers.
    pub layer: u32,
    /// Of too few bytes: how many the layer needs.
    pub needed: usize,
    /// Of too few bytes: how many are there.
    pub there: usize,
    /// Of too few bytes: the offset of the layer's first byte.
    pub place: usize,
    /// Of too few bytes: where their number comes from.
    pub source: u32,
    /// Of a header that breaks its format: the wrong value of its field.
    pub value: u32,
}

/// Why a fragment is refused. All fields are 0 where it isn't.
#[repr(C)]
#[derive(Clone, Copy, Debug, PartialEq, Eq)]
pub struct EpPartRefusal {
    /// 0 not refused, 1 others follow it and its length is no multiple of 8, 2 it ends beyond 65535
    /// bytes, 3 it ends elsewhere than the datagram, 4 over IPv6 it overlaps another fragment: then
    /// the datagram is dropped with all of its fragments.
    pub kind: u32,
    /// Of kinds 1, 2 and 4: its offset in the datagram, in units of 8 bytes.
    pub offset: u16,
    /// Of kind 3: the end of the datagram, in bytes.
    pub previous_end: u16,
    /// Of kind 3: its own end, in bytes.
    pub end: u16,
    /// Of kinds 1, 2 and 4: its length, in bytes.
    pub len: usize,
}

/// A reassembled message. All fields are 0 where there is none.
#[repr(C)]
#[derive(Clone, Copy, Debug, PartialEq, Eq)]
pub struct EpMessage {
    /// How many bytes it has.
    pub len: usize,
    /// The IP version: 4 or 6.
    pub ip_version: u32,
    /// The number of its protocol.
    pub number: u8,
    /// The source address, where `ip_version` is 4, else 0.
    pub ipv4_source: [u8; 4],
    /// The destination address, where `ip_version` is 4, else 0.
    pub ipv4_destination: [u8; 4],
    /// The source address, where `ip_version` is 6, else 0.
    pub ipv6_source: [u8; 16],
    /// The destination address, where `ip_version` is 6, else 0.
    pub ipv6_destination: [u8; 16],
}

/// What became of a frame that a pool was given, or of the message that it kept.
#[repr(C)]
#[derive(Clone, Copy, Debug, PartialEq, Eq)]
pub struct EpAdded {
    /// 5 where a message is complete and written, 1 where it is complete and the output is too
    /// short for it, and 0 where none is complete; 2 out of memory, 3 refused, 4 in a wrong state.
    pub status: u32,
    /// Why the frame is refused.
    pub refusal: EpRefusal,
    /// Why the fragment in the frame is refused.
    pub part: EpPartRefusal,
    /// The message that is complete.
    pub message: EpMessage,
}

/// The result of building a packet.
#[repr(C)]
#[derive(Clone, Copy, Debug, PartialEq, Eq)]
pub struct EpBuilt {
    /// 0 where it is built, 1 where the output is shorter than the packet, 2 where there is no
    /// memory, 3 where it is refused: EP_DONE, EP_NO_ROOM, EP_NO_MEMORY or EP_REFUSED.
    pub status: u32,
    /// What is at fault, where it is refused, else 0: the first of EP_FIELD_LINK and so on in the
    /// order of their numbers; but that the payload is too long comes before ICMPv6 over IPv4.
    pub field: u32,
    /// The length of the packet, where it is built or the output is too short, else 0.
    pub len: usize,
}

/// A capture file, pcap or pcapng, whose bytes are passed from its first byte on. It starts as zeros, and
/// only these calls change it.
#[repr(C)]
#[derive(Clone, Copy, Debug, PartialEq, Eq)]
pub struct EpCapture {
    /// Whether it was opened and not freed.
    pub is_open: bool,
    /// For these calls alone.
    pub held: *mut std::ffi::c_void,
}

/// Where bytes are in those that were passed.
#[repr(C)]
#[derive(Clone, Copy, Debug, PartialEq, Eq)]
pub struct EpPart {
    /// The offset of the first byte.
    pub offset: usize,
    /// How many bytes.
    pub len: usize,
}

/// A packet of a capture.
#[repr(C)]
#[derive(Clone, Copy, Debug, PartialEq, Eq)]
pub struct EpCapturedPacket {
    /// Its number in the capture, from 1, those included that aren't given.
    pub number: u64,
    /// When it was captured, in nanoseconds since the year 1970 began; 0 where the capture doesn't say.
    pub time: u64,
    /// The number of its interface, from 0, over all sections of a pcapng file.
    pub interface_number: u32,
    /// How many bytes it had on the wire, as the capture says.
    pub wire_len: u32,
    /// The kind of link that it was captured on: 1 Ethernet, 2 none but IP, 3 BSD loopback, 4 OpenBSD
    /// loopback, 5 a Linux cooked capture, 6 one of version 2.
    pub link: u32,
    /// How many bytes `header` has: 14, or 0 where it was captured as an Ethernet II frame.
    pub header_len: u32,
    /// An Ethernet II header for what follows its link's own: to no address, from the sender's, if it
    /// has six bytes.
    pub header: [u8; 14],
    /// Where its frame is in the bytes that were passed, or what follows its link's own header.
    pub bytes: EpPart,
}

/// Why a capture is refused, and where.
#[repr(C)]
#[derive(Clone, Copy, Debug, PartialEq, Eq)]
pub struct EpCaptureError {
    /// 1 no capture file, 2 another link type, 3 another link type than Ethernet's after the 32nd
    /// interface of a section, 4 a packet that is too long, 5 a packet without an ether type, 6 the
    /// capture ends within a packet, 7 a block that is too long, 8 another version of pcapng, 9 a block
    /// that isn't well made; 0 where it isn't refused.
    pub kind: u32,
    /// The link type, the packet's or block's length, or the major version, else 0.
    pub value: u32,
    /// The minor version, else 0.
    pub minor: u32,
    /// The type of the block there, where it is known, else 0.
    pub block_type: u32,
    /// The number in the capture of the packet there, or of the first one after it.
    pub packet: u64,
    /// How many bytes come before the file header, packet record or block there.
    pub offset: u64,
}

/// What is at the start of some bytes of a capture.
#[repr(C)]
#[derive(Clone, Copy, Debug, PartialEq, Eq)]
pub struct EpCaptured {
    /// 0 where there is a packet, 7 where more bytes have to follow or the capture ends, 3 where it is
    /// refused, 4 where it isn't open: EP_DONE, EP_MORE_BYTES, EP_REFUSED or EP_WRONG_STATE.
    pub status: u32,
    /// How many of the bytes are done with. The next call takes those after them.
    pub done: usize,
    /// The packet, where there is one.
    pub packet: EpCapturedPacket,
    /// Why and where it is refused, where it is.
    pub error: EpCaptureError,
}

/// How a capture ends.
#[repr(C)]
#[derive(Clone, Copy, Debug, PartialEq, Eq)]
pub struct EpCaptureEnding {
    /// 0 where it is whole, 3 where it is cut off or was refused before, 4 where it isn't open: EP_DONE,
    /// EP_REFUSED or EP_WRONG_STATE.
    pub status: u32,
    /// Why and where it is refused, where it is.
    pub error: EpCaptureError,
}

/// Control flags of a TCP segment (RFC 9293, section 3.1).
#[repr(C)]
#[derive(Clone, Copy, Debug, PartialEq, Eq)]
pub struct EpSegmentFlags {
    /// SYN: the sequence number is its own, and the payload begins at the next one.
    pub syn: bool,
    /// ACK.
    pub ack: bool,
    /// FIN: no byte comes after the payload.
    pub fin: bool,
    /// RST: the connection is reset, and the payload is no part of the stream.
    pub rst: bool,
}

/// How far a connection came. Zeros are a connection of which no segment came.
#[repr(C)]
#[derive(Clone, Copy, Debug, PartialEq, Eq)]
pub struct EpConnectionState {
    /// 0 unseen, 1 SYN sent, 2 SYN received, 3 established, 4 closing, 5 closed, 6 reset.
    pub state: u32,
    /// Of 1 and 2: the direction of the endpoint that opens it, of 4 that of the FIN. Else 0.
    pub direction: u32,
}

/// The extension headers of an IP packet that are left.
#[repr(C)]
#[derive(Clone, Copy, Debug, PartialEq, Eq)]
pub struct EpExtensions {
    /// Where they are.
    pub left: EpPart,
    /// The number of the first of them.
    pub next_header: u8,
}

/// An extension header of IPv6 (RFC 8200, section 4), or the authentication header of IPv4 (RFC 4302).
/// The fields of other kinds are 0.
#[repr(C)]
#[derive(Clone, Copy, Debug, PartialEq, Eq)]
pub struct EpExtension {
    /// The header.
    pub header: EpPart,
    /// Of options and routing: what follows the first two bytes. Of authentication: the integrity
    /// check value.
    pub payload: EpPart,
    /// Which header it is, numbered as the layer of a refusal: EP_LAYER_IPV6_HOP_BY_HOP_HEADER,
    /// EP_LAYER_IPV6_DEST_OPTIONS_HEADER, EP_LAYER_IPV6_ROUTE_HEADER, EP_LAYER_IPV6_FRAG_HEADER or
    /// EP_LAYER_IP_AUTH_HEADER; 0 none, since none is left.
    pub layer: u32,
    /// Of a fragment header: the identification, which the fragments of one datagram share.
    pub identification: u32,
    /// Of authentication: the security parameters index.
    pub spi: u32,
    /// Of authentication: the sequence number.
    pub sequence_number: u32,
    /// Of a fragment header: the offset of the payload in the datagram, in units of 8 bytes.
    pub fragment_offset: u16,
    /// Its number: 0 hop-by-hop options, 43 routing, 44 fragment, 51 authentication, 60 destination
    /// options.
    pub number: u8,
    /// The number of what follows it.
    pub next_header: u8,
    /// Of a fragment header: whether other fragments follow.
    pub more_fragments: bool,
}

/// The records of groups that are left in a report.
#[repr(C)]
#[derive(Clone, Copy, Debug, PartialEq, Eq)]
pub struct EpGroupRecords {
    /// Where they are.
    pub left: EpPart,
    /// How many of those that the report names aren't taken yet.
    pub count: u32,
    /// Whether their addresses are of IPv6 and have 16 bytes, and not the 4 of IPv4.
    pub is_ipv6: bool,
}

/// A message of a multicast group: of IGMP over IPv4 (RFC 2236; RFC 3376), or of multicast listener
/// discovery over IPv6 (RFC 2710; RFC 3810). The fields of other kinds are 0.
#[repr(C)]
#[derive(Clone, Copy, Debug, PartialEq, Eq)]
pub struct EpGroupMessage {
    /// Of a query with sources: their addresses, of 4 or 16 bytes each; none: every source.
    pub sources: EpPart,
    /// Of a report of records: the records.
    pub records: EpGroupRecords,
    /// Of one that is too short: how many bytes it needs.
    pub needed: usize,
    /// Of one that is too short: how many bytes it has.
    pub there: usize,
    /// The kind, one of EP_GROUP_..
    pub kind: u32,
    /// Of a query: how long a host may wait with its report. Without sources: of IGMP in tenths of a
    /// second, 0: version 1; of MLD in milliseconds. With sources: as a code (RFC 3376, section
    /// 4.1.1; RFC 3810, section 5.1.3).
    pub max_response: u16,
    /// Of kinds 1 to 5: the address of the group, the first 4 bytes, or all 16 of IPv6. Of a query all
    /// zeros: every group.
    pub group: [u8; 16],
}

/// The record of a group in a report (RFC 3376, section 4.2.4; RFC 3810, section 5.2.5). What it doesn't
/// have is 0.
#[repr(C)]
#[derive(Clone, Copy, Debug, PartialEq, Eq)]
pub struct EpGroupRecord {
    /// The record; of one that is cut off where it starts.
    pub bytes: EpPart,
    /// The addresses of its sources, of 4 or 16 bytes each.
    pub sources: EpPart,
    /// What follows them, of which neither standard defines any.
    pub auxiliary_data: EpPart,
    /// Of kind 2: how many bytes it needs: at first those before its sources, then all.
    pub needed: usize,
    /// Of kind 2: how many bytes are left.
    pub there: usize,
    /// 0 none, since none is left; 1 a record; 2 fewer bytes are left than a record needs: nothing is
    /// read after it.
    pub kind: u32,
    /// Its type: 1 to 6 (RFC 3376, section 4.2.12).
    pub record_type: u8,
    /// The address of the group: the first 4 bytes, or all 16 where it is of IPv6.
    pub group: [u8; 16],
}

/// What an ICMP message says beside its type and code, by its kind. The fields of other kinds are 0.
#[repr(C)]
#[derive(Clone, Copy, Debug, PartialEq, Eq)]
pub struct EpIcmpFields {
    /// The kind, one of EP_ICMP_..
    pub kind: u32,
    /// Of a packet too big: the greatest packet in bytes that the next link takes. Also of a
    /// destination unreachable of ICMPv4 with code 4, where nodes that don't report it write 0.
    pub mtu: u32,
    /// Of a parameter problem: the offset of the fault in the packet. With ICMPv4 only code 0 has one.
    pub pointer: u32,
    /// Of timestamps: when the request was last touched by its sender, in milliseconds since
    /// midnight UT.
    pub originate_timestamp: u32,
    /// Of timestamps: when the request was first touched by its receiver.
    pub receive_timestamp: u32,
    /// Of timestamps: when the reply was last touched by its sender.
    pub transmit_timestamp: u32,
    /// Of echoes and timestamps: the identifier, which the reply repeats.
    pub id: u16,
    /// Of echoes and timestamps: the sequence number, which the reply repeats.
    pub sequence_number: u16,
    /// Of a redirect: the address of the better gateway.
    pub gateway: [u8; 4],
}

/// A message of neighbor discovery for IPv6 (RFC 4861, section 4). The fields of other types are 0.
#[repr(C)]
#[derive(Clone, Copy, Debug, PartialEq, Eq)]
pub struct EpNdp {
    /// Where its options start in the message.
    pub options_offset: usize,
    /// Of a router advertisement: how long a neighbor is reachable after a confirmation, in
    /// milliseconds; 0: not given.
    pub reachable_time: u32,
    /// Of a router advertisement: the time between repeated solicitations, in milliseconds; 0: not
    /// given.
    pub retrans_timer: u32,
    /// Of a router advertisement: how long the router is a default router, in seconds; 0: it is none.
    pub router_lifetime: u16,
    /// The type: 133 router solicitation, 134 router advertisement, 135 neighbor solicitation, 136
    /// neighbor advertisement, 137 redirect; 0 none of these, or too few bytes for it.
    pub icmp_type: u8,
    /// Of a router advertisement: the hop limit for packets to send, 0 where the router gives none.
    pub hop_limit: u8,
    /// Of a router advertisement: bit M: addresses are available by DHCPv6.
    pub managed: bool,
    /// Of a router advertisement: bit O: other configuration is available by DHCPv6.
    pub other: bool,
    /// Of a neighbor advertisement: bit R: the sender is a router.
    pub router: bool,
    /// Of a neighbor advertisement: bit S: it answers a solicitation.
    pub solicited: bool,
    /// Of a neighbor advertisement: bit O: it overrides the link-layer address that is cached.
    pub overrides: bool,
    /// Of neighbor solicitations and advertisements: the address whose link-layer address it is about;
    /// of a redirect: the better first hop.
    pub target: [u8; 16],
    /// Of a redirect: the address whose packets go there.
    pub destination: [u8; 16],
}

/// A link header. The fields of other kinds are 0.
#[repr(C)]
#[derive(Clone, Copy, Debug, PartialEq, Eq)]
pub struct EpLink {
    /// 0 none, 1 Ethernet II, 2 a Linux cooked capture.
    pub kind: u32,
    /// The ether type; in a cooked capture the protocol's number, whatever its kind.
    pub protocol: u16,
    /// Of Ethernet II.
    pub destination: [u8; 6],
    /// Of Ethernet II.
    pub source: [u8; 6],
    /// Of a cooked capture: 0 to us, 1 broadcast, 2 multicast, 3 to others, 4 from us.
    pub packet_type: u16,
    /// Of a cooked capture: the hardware type (ARPHRD).
    pub hardware_type: u16,
    /// Of a cooked capture: how many bytes of the address are the sender's, as it states it.
    pub address_len: u16,
    /// Of a cooked capture: the sender's address, and bytes without meaning after it.
    pub address: [u8; 8],
}

/// A tag between link header and packet. The fields of other kinds are 0.
#[repr(C)]
#[derive(Clone, Copy, Debug, PartialEq, Eq)]
pub struct EpTag {
    /// Where the tag itself is.
    pub header: EpPart,
    /// 0 none, 1 VLAN, 2 MACsec.
    pub kind: u32,
    /// The ether type of what follows, 0 where a changed or encrypted MACsec payload follows.
    pub ether_type: u16,
    /// Of VLAN: the identifier.
    pub vlan_id: u16,
    /// Of VLAN: the priority code point.
    pub priority: u8,
    /// Of VLAN: whether the frame may be dropped first.
    pub drop_eligible: bool,
    /// Of MACsec: bit ES.
    pub end_station: bool,
    /// Of MACsec: bit SCB.
    pub single_copy_broadcast: bool,
    /// Of MACsec: bit E.
    pub encrypted: bool,
    /// Of MACsec: bit C.
    pub changed: bool,
    /// Of MACsec: whether a channel identifier is there.
    pub has_channel: bool,
    /// Of MACsec: the association number.
    pub association: u8,
    /// Of MACsec: the short length.
    pub short_len: u8,
    /// Of MACsec: the packet number.
    pub packet_number: u32,
    /// Of MACsec: the secure channel identifier.
    pub channel: u64,
}

/// An IPv4 packet (RFC 791). Its options are the last bytes of its header.
#[repr(C)]
#[derive(Clone, Copy, Debug, PartialEq, Eq)]
pub struct EpIpv4 {
    /// The header, options included.
    pub header: EpPart,
    /// The authentication header.
    pub extensions: EpPart,
    /// What follows it, without padding.
    pub payload: EpPart,
    /// The source address.
    pub source: [u8; 4],
    /// The destination address.
    pub destination: [u8; 4],
    /// The length of header and payload, as the header states it.
    pub total_len: u16,
    /// The identification, which the fragments of one datagram share.
    pub identification: u16,
    /// The offset of the payload in the datagram, in units of 8 bytes.
    pub fragment_offset: u16,
    /// The header checksum, as the header states it.
    pub header_checksum: u16,
    /// Differentiated services code point.
    pub dscp: u8,
    /// Explicit congestion notification.
    pub ecn: u8,
    /// Hops that are left.
    pub time_to_live: u8,
    /// The number of what follows the header.
    pub protocol: u8,
    /// The number of the payload, after an authentication header.
    pub payload_number: u8,
    /// Whether the packet may not be fragmented.
    pub dont_fragment: bool,
    /// Whether other fragments follow.
    pub more_fragments: bool,
    /// Whether the payload is a fragment.
    pub is_part: bool,
}

/// An IPv6 packet (RFC 8200).
#[repr(C)]
#[derive(Clone, Copy, Debug, PartialEq, Eq)]
pub struct EpIpv6 {
    /// The base header.
    pub header: EpPart,
    /// All extension headers.
    pub extensions: EpPart,
    /// What follows them, without padding.
    pub payload: EpPart,
    /// The source address.
    pub source: [u8; 16],
    /// The destination address.
    pub destination: [u8; 16],
    /// The flow label.
    pub flow_label: u32,
    /// The identification, which the fragments of one datagram share, by the first fragment header.
    pub identification: u32,
    /// The payload length, as the header states it.
    pub payload_length: u16,
    /// The offset of the payload in the datagram, in units of 8 bytes, by the first fragment
    /// header.
    pub fragment_offset: u16,
    /// The traffic class.
    pub traffic_class: u8,
    /// The number of what follows the base header.
    pub next_header: u8,
    /// Hops that are left.
    pub hop_limit: u8,
    /// The number of the payload, after the extension headers.
    pub payload_number: u8,
    /// Whether there is a fragment header.
    pub has_fragment_header: bool,
    /// Whether other fragments follow, by the first fragment header.
    pub more_fragments: bool,
    /// Whether the payload is a fragment.
    pub is_part: bool,
}

/// An ARP packet (RFC 826).
#[repr(C)]
#[derive(Clone, Copy, Debug, PartialEq, Eq)]
pub struct EpArp {
    /// The packet.
    pub packet: EpPart,
    /// The sender's hardware address.
    pub sender_hardware: EpPart,
    /// The sender's protocol address.
    pub sender_protocol: EpPart,
    /// The target's hardware address.
    pub target_hardware: EpPart,
    /// The target's protocol address.
    pub target_protocol: EpPart,
    /// The kind of hardware address.
    pub hardware_type: u16,
    /// The kind of protocol address, an ether type.
    pub protocol_type: u16,
    /// 1 request, 2 reply.
    pub operation: u16,
}

/// A UDP datagram (RFC 768).
#[repr(C)]
#[derive(Clone, Copy, Debug, PartialEq, Eq)]
pub struct EpUdp {
    /// The header.
    pub header: EpPart,
    /// What follows it.
    pub payload: EpPart,
    /// The source port.
    pub source_port: u16,
    /// The destination port.
    pub destination_port: u16,
    /// The length of header and payload, as the header states it; 0 in a jumbogram.
    pub stated_len: u16,
    /// The checksum, as the header states it; 0 where none was sent.
    pub checksum: u16,
}

/// A TCP segment (RFC 9293). Its options follow the first 20 bytes of the header.
#[repr(C)]
#[derive(Clone, Copy, Debug, PartialEq, Eq)]
pub struct EpTcp {
    /// The header, options included.
    pub header: EpPart,
    /// What follows it.
    pub payload: EpPart,
    /// The sequence number.
    pub sequence_number: u32,
    /// The acknowledgment number.
    pub acknowledgment_number: u32,
    /// The source port.
    pub source_port: u16,
    /// The destination port.
    pub destination_port: u16,
    /// The window.
    pub window_size: u16,
    /// The checksum, as the header states it.
    pub checksum: u16,
    /// The urgent pointer.
    pub urgent_pointer: u16,
    /// Flag NS (RFC 3540).
    pub ns: bool,
    /// Flag FIN.
    pub fin: bool,
    /// Flag SYN.
    pub syn: bool,
    /// Flag RST.
    pub rst: bool,
    /// Flag PSH.
    pub psh: bool,
    /// Flag ACK.
    pub ack: bool,
    /// Flag URG.
    pub urg: bool,
    /// Flag ECE.
    pub ece: bool,
    /// Flag CWR.
    pub cwr: bool,
}

/// An ICMP message of either version (RFC 792; RFC 4443).
#[repr(C)]
#[derive(Clone, Copy, Debug, PartialEq, Eq)]
pub struct EpIcmp {
    /// The header: 20 bytes in ICMPv4's timestamp messages, else 8.
    pub header: EpPart,
    /// What follows it.
    pub payload: EpPart,
    /// The checksum, as the header states it.
    pub checksum: u16,
    /// The type.
    pub icmp_type: u8,
    /// The code.
    pub code: u8,
    /// Bytes 4 to 7, whatever the type says of them.
    pub rest: [u8; 4],
}

/// The fields of a packet. Every [`EpPart`] counts from the start of the bytes that were passed.
/// The fields of a layer that isn't there are 0, and all but `refusal` are where the packet is
/// refused.
#[repr(C)]
#[derive(Clone, Copy, Debug, PartialEq, Eq)]
pub struct EpPacket {
    /// Why the packet is refused.
    pub refusal: EpRefusal,
    /// The link header.
    pub link: EpLink,
    /// How many tags there are.
    pub tag_count: u32,
    /// The tags after the link header, in their order.
    pub tags: [EpTag; 3],
    /// The payload that the last ether type names.
    pub ether_payload: EpPart,
    /// The network layer: 0 none, 1 ARP, 4 IPv4, 6 IPv6.
    pub net: u32,
    /// The transport layer: 0 none, or its number: 1 ICMPv4, 6 TCP, 17 UDP, 58 ICMPv6.
    pub transport: u32,
    /// The packet, where it is one of IPv4.
    pub ipv4: EpIpv4,
    /// The packet, where it is one of IPv6.
    pub ipv6: EpIpv6,
    /// The packet, where it is one of ARP.
    pub arp: EpArp,
    /// The message, where it is a UDP datagram.
    pub udp: EpUdp,
    /// The message, where it is a TCP segment.
    pub tcp: EpTcp,
    /// The message, where it is one of ICMP.
    pub icmp: EpIcmp,
}

/// The fields of a packet as far as it is there, also where it was cut off or a header breaks its
/// format.
#[repr(C)]
#[derive(Clone, Copy, Debug, PartialEq, Eq)]
pub struct EpLaxPacket {
    /// The layers that are there. Its `refusal` says why not even the first header can be read: the
    /// link header, or the IP header of a packet without one. Where a length field says more than is
    /// there, the payload ends with the bytes that were passed. Also where the total length of IPv4
    /// is less than its header, the payload is all that follows. A UDP length that doesn't fit isn't
    /// a fault here. So a packet without a stop of which nothing is missing may still be refused by
    /// `ep_slice_ethernet`. Where an extension header stopped the reading, the IP payload starts with
    /// it, and `payload_number` is its number.
    pub packet: EpPacket,
    /// Why the reading stopped before the end: the refusal of the first layer after these. All
    /// fields are 0 where it didn't stop.
    pub stop: EpRefusal,
    /// The layer that was being read when it stopped, numbered as the layer of a refusal: it says
    /// which extension header, where `stop.layer` is EP_LAYER_IPV6_EXT_HEADER. 0 where it didn't
    /// stop.
    pub stop_layer: u32,
    /// Whether bytes are missing that the length field of IPv4, IPv6 or MACsec counts: bytes of the
    /// payload of `ipv4` or `ipv6`, or where neither is there, of what follows the tags.
    pub incomplete: bool,
}

/// An option of neighbor discovery (RFC 4861, section 4.6; RFC 8106, section 5), or why the bytes are
/// none. The fields of other kinds are 0.
#[repr(C)]
#[derive(Clone, Copy, Debug, PartialEq, Eq)]
pub struct EpNdpOption {
    /// The option with its type and its length; of a fault where it starts.
    pub option: EpPart,
    /// What it carries. Of a link-layer address: the address, with what fills its last unit of 8
    /// bytes. Of a redirected header: the packet. Of recursive DNS servers: their addresses, of 16
    /// bytes each. Of a search list: names as labels, filled with zeros. Of an unknown one: what
    /// follows type and length.
    pub carried: EpPart,
    /// Of fault 1: how many bytes it needs.
    pub needed: usize,
    /// Of fault 1: how many bytes are left.
    pub there: usize,
    /// Which option it is, one of EP_NDP_OPTION_..
    pub kind: u32,
    /// 0 none; 1 fewer bytes are left than the option needs; 2 its length is 0.
    pub fault: u32,
    /// Of recursive DNS servers and of a search list: how long they may be used, in seconds; all ones:
    /// for ever.
    pub lifetime: u32,
    /// Of a prefix: how long it is on the link, in seconds; all ones: for ever.
    pub valid_lifetime: u32,
    /// Of a prefix: how long addresses formed with it are preferred, in seconds; all ones: for ever.
    pub preferred_lifetime: u32,
    /// Of an MTU: the link's greatest packet in bytes.
    pub mtu: u32,
    /// The type; of a fault 0.
    pub option_type: u8,
    /// Of a prefix: how many of its leading bits are valid, 0 to 128.
    pub prefix_length: u8,
    /// Of a prefix: bit L: its addresses are on the link.
    pub on_link: bool,
    /// Of a prefix: bit A: a host may form an address with it.
    pub autonomous: bool,
    /// Of a prefix: the prefix, whose bits after `prefix_length` are to be ignored.
    pub prefix: [u8; 16],
}

/// One end of a TCP connection.
#[repr(C)]
#[derive(Clone, Copy, Debug, PartialEq, Eq)]
pub struct EpEndpoint {
    /// The IP version: 4 or 6.
    pub version: u16,
    /// The port.
    pub port: u16,
    /// The address. One of IPv4 is filled up with 0 to 16 bytes.
    pub address: [u8; 16],
}

/// What the segments of a TCP connection have in common, whichever way they go. There is no padding:
/// keys are the same where their bytes are.
#[repr(C)]
#[derive(Clone, Copy, Debug, PartialEq, Eq)]
pub struct EpFlowKey {
    /// The endpoint of the lower version, else of the lower address by its bytes, else of the lower
    /// port.
    pub lower: EpEndpoint,
    /// The other endpoint.
    pub higher: EpEndpoint,
    /// The caller's channel.
    pub channel: u32,
    /// The identifiers of the VLAN tags, the outer one first. 0 where there are fewer.
    pub vlan_ids: [u16; 3],
    /// How many VLAN tags there are, 0 to 3.
    pub vlan_count: u16,
}

/// The key of a packet.
#[repr(C)]
#[derive(Clone, Copy, Debug, PartialEq, Eq)]
pub struct EpPacketKey {
    /// 0 where there is one, 3 where the packet is refused, 6 where it has no TCP segment whose
    /// header is whole, or is a fragment. Where it isn't 0, all other fields are.
    pub status: u32,
    /// In which direction the packet goes: 1 from the lower endpoint, 2 from the higher one.
    pub direction: u32,
    /// The key.
    pub key: EpFlowKey,
}

/// The headers of a packet to build. The fields of headers that it doesn't have are ignored.
/// Lengths, checksums, ether types and the numbers of headers follow from it.
#[repr(C)]
#[derive(Clone, Copy, Debug, PartialEq, Eq)]
pub struct EpPlan {
    /// The link header: 0 none, 1 Ethernet II, 2 a Linux cooked capture of an Ethernet device.
    pub link: u32,
    /// Of Ethernet II: the destination address.
    pub destination: [u8; 6],
    /// Of Ethernet II: the source address.
    pub source: [u8; 6],
    /// Of a cooked capture: 0 to us, 1 broadcast, 2 multicast, 3 to others, 4 from us.
    pub packet_type: u16,
    /// Of a cooked capture: how many bytes of the address are the sender's.
    pub address_len: u16,
    /// Of a cooked capture: the sender's address.
    pub address: [u8; 8],
    /// How many VLAN tags follow an Ethernet II header: 0, 1 or 2.
    pub tag_count: u32,
    /// The identifier of the first of them, 0 to 4095.
    pub outer_vlan_id: u16,
    /// The identifier of the second one, 0 to 4095.
    pub inner_vlan_id: u16,
    /// The priority of the first of them, 0 to 7 (IEEE 802.1Q, section 6.9.3).
    pub outer_priority: u8,
    /// The priority of the second one, 0 to 7.
    pub inner_priority: u8,
    /// Whether the first of them says that the frame may be dropped first.
    pub outer_drop_eligible: bool,
    /// Whether the second one says so.
    pub inner_drop_eligible: bool,
    /// The IP version: 4 or 6.
    pub ip_version: u32,
    /// Of IPv4: the source address.
    pub ipv4_source: [u8; 4],
    /// Of IPv4: the destination address.
    pub ipv4_destination: [u8; 4],
    /// Of IPv6: the source address.
    pub ipv6_source: [u8; 16],
    /// Of IPv6: the destination address.
    pub ipv6_destination: [u8; 16],
    /// Of IPv4: how many bytes of options there are, at most 40, a multiple of 4.
    pub ipv4_options_len: usize,
    /// Of IPv4: the options.
    pub ipv4_options: [u8; 40],
    /// Of IPv4: the identification, which the fragments of one datagram share.
    pub identification: u16,
    /// Of IPv4: the offset of the payload in the datagram, in units of 8 bytes, 0 to 8191.
    pub fragment_offset: u16,
    /// Of IPv4: differentiated services code point, 0 to 63 (RFC 2474).
    pub dscp: u8,
    /// Of IPv4: explicit congestion notification, 0 to 3 (RFC 3168).
    pub ecn: u8,
    /// Of IPv4: whether the packet may be fragmented. Where it may not, don't-fragment is set.
    pub may_fragment: bool,
    /// Of IPv4: whether other fragments follow.
    pub more_fragments: bool,
    /// Of IPv6: the flow label, 0 to 1048575.
    pub flow_label: u32,
    /// Of IPv6: the traffic class. Differentiated services code point are its upper 6 bits, explicit
    /// congestion notification the lower 2.
    pub traffic_class: u8,
    /// How many hops it may take: time to live of IPv4, hop limit of IPv6.
    pub hops: u8,
    /// Without a transport header: the number of the payload.
    pub payload_number: u8,
    /// The transport header: 0 none, or its number: 1 ICMPv4, 6 TCP, 17 UDP, 58 ICMPv6.
    pub transport: u32,
    /// Of UDP and TCP: the source port.
    pub source_port: u16,
    /// Of UDP and TCP: the destination port.
    pub destination_port: u16,
    /// Of ICMP: whether it is the reply to an echo request, and not the request.
    pub is_reply: bool,
    /// Of ICMP: the identifier of the echo.
    pub echo_id: u16,
    /// Of ICMP: the number of the echo.
    pub echo_sequence: u16,
    /// Of ICMP: whether it isn't an echo, but has the type, the code and the 4 bytes that follow here.
    pub icmp_is_raw: bool,
    /// Of ICMP that is no echo: its type.
    pub icmp_type: u8,
    /// Of ICMP that is no echo: its code.
    pub icmp_code: u8,
    /// Of ICMP that is no echo: the 4 bytes after the checksum.
    pub icmp_bytes: [u8; 4],
    /// Of TCP: the sequence number.
    pub sequence_number: u32,
    /// Of TCP: the acknowledgment number.
    pub acknowledgment_number: u32,
    /// Of TCP: the window.
    pub window_size: u16,
    /// Of TCP: the urgent pointer.
    pub urgent_pointer: u16,
    /// Of TCP: flag NS: ECN nonce (RFC 3540).
    pub ns: bool,
    /// Of TCP: flag FIN: no more data.
    pub fin: bool,
    /// Of TCP: flag SYN: sequence numbers are synchronized.
    pub syn: bool,
    /// Of TCP: flag RST: the connection is reset.
    pub rst: bool,
    /// Of TCP: flag PSH: push.
    pub psh: bool,
    /// Of TCP: flag ACK: the acknowledgment number counts.
    pub ack: bool,
    /// Of TCP: flag URG: the urgent pointer counts.
    pub urg: bool,
    /// Of TCP: flag ECE: ECN echo.
    pub ece: bool,
    /// Of TCP: flag CWR: congestion window reduced.
    pub cwr: bool,
    /// Of TCP: how many bytes of options there are, at most 40.
    pub options_len: usize,
    /// Of TCP: the options. They are padded with 0 to whole words of 4 bytes.
    pub options: [u8; 40],
}

/// The extension headers of a packet to build (RFC 8200, section 4; RFC 4302). They are written in the
/// order of RFC 8200, section 4.1: hop-by-hop options, destination options, routing, fragment,
/// authentication, destination options. Over IPv4 there is authentication alone. A part of options or
/// routing is what follows the first two bytes of the header: 6 bytes and a multiple of 8, at most
/// 2046; no bytes stand for no header. Numbers and lengths of headers follow from it.
#[repr(C)]
#[derive(Clone, Copy, Debug, PartialEq, Eq)]
pub struct EpPlannedExtensions {
    /// Hop-by-hop options.
    pub hop_by_hop_options: EpPart,
    /// Destination options before a routing header, or where there is none.
    pub destination_options: EpPart,
    /// The routing header.
    pub routing: EpPart,
    /// Destination options after the routing header, without which they are refused.
    pub final_destination_options: EpPart,
    /// Of authentication: the integrity check value, a multiple of 4 bytes, at most 1016.
    pub integrity_check_value: EpPart,
    /// Of a fragment header: the identification, which the fragments of one datagram share.
    pub identification: u32,
    /// Of authentication: the security parameters index.
    pub spi: u32,
    /// Of authentication: the sequence number.
    pub sequence_number: u32,
    /// Of a fragment header: the offset of the payload in the datagram, in units of 8 bytes, 0 to
    /// 8191.
    pub fragment_offset: u16,
    /// Of a fragment header: whether other fragments follow.
    pub more_fragments: bool,
    /// Whether there is a fragment header.
    pub has_fragment_header: bool,
    /// Whether there is an authentication header.
    pub has_authentication: bool,
}

/// A pool that reassembles datagrams. It starts as zeros, and only these calls change it.
#[repr(C)]
#[derive(Clone, Copy, Debug, PartialEq, Eq)]
pub struct EpPool {
    /// Whether it was opened and not freed.
    pub is_open: bool,
    /// For these calls alone.
    pub held: *mut std::ffi::c_void,
}

/// The bytes that one end of a TCP connection sent, put together as its segments come. Positions count
/// from 0, the number after that of SYN or, where SYN wasn't seen, that of the first segment. It starts
/// as zeros, and only these calls change it.
#[repr(C)]
#[derive(Clone, Copy, Debug, PartialEq, Eq)]
pub struct EpStream {
    /// Whether it was opened and not freed.
    pub is_open: bool,
    /// For these calls alone.
    pub held: *mut std::ffi::c_void,
}

/// Positions at which a segment has another byte than one before it. The first byte stays.
#[repr(C)]
#[derive(Clone, Copy, Debug, PartialEq, Eq)]
pub struct EpConflicts {
    /// How many there are, UINT64_MAX at most.
    pub count: u64,
    /// The one that was found first, 0 where there is none.
    pub first: u64,
}

/// What became of a segment that a stream was given.
#[repr(C)]
#[derive(Clone, Copy, Debug, PartialEq, Eq)]
pub struct EpStreamAdded {
    /// 0 where it is accepted, 2 out of memory, 3 where it is refused, 4 where the stream isn't open.
    /// Where it isn't 0, nothing changed.
    pub status: u32,
    /// Why it is refused: 1 it ends after the window, 2 it has a byte or FIN after FIN, or its FIN
    /// stands before a byte or FIN, 3 the connection was reset. Else 0.
    pub refusal: u32,
    /// Of refusal 1: the position after the window. Of 2: that of the FIN that stands before the
    /// other. Else 0.
    pub refused_at: u64,
    /// The position of its first byte, those before the ones that are held left out. 0 where it isn't
    /// accepted.
    pub position: u64,
    /// The positions of its bytes that differ from those that are held.
    pub conflicts: EpConflicts,
}

/// Positions whose bytes are missing. Both are 0 where there is no gap.
#[repr(C)]
#[derive(Clone, Copy, Debug, PartialEq, Eq)]
pub struct EpGap {
    /// The first of them.
    pub start: u64,
    /// The position after the last one.
    pub end: u64,
}

/// How far a stream came. All fields are 0 where it isn't open.
#[repr(C)]
#[derive(Clone, Copy, Debug, PartialEq, Eq)]
pub struct EpStreamProgress {
    /// How many bytes can be read: those that follow the ones that were read, up to the first that
    /// is missing.
    pub available: usize,
    /// How many bytes were read.
    pub consumed: u64,
    /// The first positions whose bytes are missing, if bytes after them are held.
    pub gap: EpGap,
    /// The conflicts of all segments.
    pub conflicts: EpConflicts,
    /// Whether all bytes before FIN came.
    pub is_finished: bool,
    /// Whether the connection was reset.
    pub is_reset: bool,
    /// Whether the first segment that came had no SYN: bytes before it may be missing.
    pub joined_late: bool,
}

/// A block of bytes that arrived after a gap (RFC 2018, section 3).
#[repr(C)]
#[derive(Clone, Copy, Debug, PartialEq, Eq)]
pub struct EpTcpBlock {
    /// The sequence number of its first byte.
    pub left_edge: u32,
    /// The sequence number of the byte after its last one.
    pub right_edge: u32,
}

/// An option of a TCP header, or why the bytes are none. The fields of other kinds are 0.
#[repr(C)]
#[derive(Clone, Copy, Debug, PartialEq, Eq)]
pub struct EpTcpOption {
    /// Of kind 5: the blocks, of which `block_count` are there.
    pub blocks: [EpTcpBlock; 4],
    /// Of fault 1: how many bytes are left.
    pub there: usize,
    /// Of kind 8: the sender's clock.
    pub timestamp: u32,
    /// Of kind 8: the clock value that it replies to.
    pub echoed_timestamp: u32,
    /// 0 none; 1 fewer bytes are left than the option needs; 2 its length byte isn't one that its
    /// kind has; 3 the kind is unknown. After a fault nothing is read.
    pub fault: u32,
    /// Of kind 5: how many blocks there are, 1 to 4.
    pub block_count: u32,
    /// Of kind 2: the greatest segment that the sender takes.
    pub maximum_segment_size: u16,
    /// The kind of the option: 0 none, since the list has ended; 1 no operation, 2 maximum segment
    /// size, 3 window scale, 4 selective acknowledgements are permitted, 5 a selective
    /// acknowledgement, 8 timestamps. Of a fault any but 0.
    pub kind: u8,
    /// Of kind 3: by how many bits window sizes are shifted.
    pub window_scale: u8,
    /// Of fault 1: how many bytes it needs.
    pub needed: u8,
    /// Of fault 2: its length byte.
    pub stated_len: u8,
}

/// The header of a pcap file.
#[repr(C)]
#[derive(Clone, Copy, Debug, PartialEq, Eq)]
pub struct EpFileHeader {
    /// Its bytes.
    pub bytes: [u8; 24],
}

/// The head of a packet record of a pcap file, which the captured bytes of the packet follow.
#[repr(C)]
#[derive(Clone, Copy, Debug, PartialEq, Eq)]
pub struct EpRecordHead {
    /// Its bytes.
    pub bytes: [u8; 16],
}

/// Lines that come in chunks. It starts as zeros, and is changed by these calls alone.
#[repr(C)]
#[derive(Clone, Copy, Debug, PartialEq, Eq)]
pub struct NetlinesSession {
    /// Whether it was opened and not closed.
    pub is_open: bool,
    /// Used by these calls alone.
    pub held: *mut std::ffi::c_void,
}

impl EpPart {
    /// Zero in each field.
    pub const ZERO: EpPart = EpPart {
        offset: 0,
        len: 0,
    };
}

impl EpArp {
    /// Zero in each field.
    pub const ZERO: EpArp = EpArp {
        packet: EpPart::ZERO,
        sender_hardware: EpPart::ZERO,
        sender_protocol: EpPart::ZERO,
        target_hardware: EpPart::ZERO,
        target_protocol: EpPart::ZERO,
        hardware_type: 0,
        protocol_type: 0,
        operation: 0,
    };
}

impl EpPlan {
    /// Zero in each field.
    pub const ZERO: EpPlan = EpPlan {
        link: 0,
        destination: [0; 6],
        source: [0; 6],
        packet_type: 0,
        address_len: 0,
        address: [0; 8],
        tag_count: 0,
        outer_vlan_id: 0,
        inner_vlan_id: 0,
        outer_priority: 0,
        inner_priority: 0,
        outer_drop_eligible: false,
        inner_drop_eligible: false,
        ip_version: 0,
        ipv4_source: [0; 4],
        ipv4_destination: [0; 4],
        ipv6_source: [0; 16],
        ipv6_destination: [0; 16],
        ipv4_options_len: 0,
        ipv4_options: [0; 40],
        identification: 0,
        fragment_offset: 0,
        dscp: 0,
        ecn: 0,
        may_fragment: false,
        more_fragments: false,
        flow_label: 0,
        traffic_class: 0,
        hops: 0,
        payload_number: 0,
        transport: 0,
        source_port: 0,
        destination_port: 0,
        is_reply: false,
        echo_id: 0,
        echo_sequence: 0,
        icmp_is_raw: false,
        icmp_type: 0,
        icmp_code: 0,
        icmp_bytes: [0; 4],
        sequence_number: 0,
        acknowledgment_number: 0,
        window_size: 0,
        urgent_pointer: 0,
        ns: false,
        fin: false,
        syn: false,
        rst: false,
        psh: false,
        ack: false,
        urg: false,
        ece: false,
        cwr: false,
        options_len: 0,
        options: [0; 40],
    };
}

impl EpPlannedExtensions {
    /// Zero in each field.
    pub const ZERO: EpPlannedExtensions = EpPlannedExtensions {
        hop_by_hop_options: EpPart::ZERO,
        destination_options: EpPart::ZERO,
        routing: EpPart::ZERO,
        final_destination_options: EpPart::ZERO,
        integrity_check_value: EpPart::ZERO,
        identification: 0,
        spi: 0,
        sequence_number: 0,
        fragment_offset: 0,
        more_fragments: false,
        has_fragment_header: false,
        has_authentication: false,
    };
}

extern "C" {
    pub(crate) fn ep_build(plan: *const EpPlan, payload: *const u8, payload_len: usize, output: *mut u8, output_len: usize) -> EpBuilt;
    pub(crate) fn ep_build_with_extensions(plan: *const EpPlan, extensions: *const EpPlannedExtensions, bytes: *const u8, bytes_len: usize, payload: *const u8, payload_len: usize, output: *mut u8, output_len: usize) -> EpBuilt;
    pub(crate) fn ep_build_arp(plan: *const EpPlan, arp: *const EpArp, bytes: *const u8, bytes_len: usize, output: *mut u8, output_len: usize) -> EpBuilt;
    pub(crate) fn ep_capture_new(capture: *mut EpCapture, skips: bool) -> u32;
    pub(crate) fn ep_capture_next(capture: *mut EpCapture, bytes: *const u8, bytes_len: usize) -> EpCaptured;
    pub(crate) fn ep_capture_end(capture: *mut EpCapture, bytes: *const u8, bytes_len: usize) -> EpCaptureEnding;
    pub(crate) fn ep_capture_free(capture: *mut EpCapture);
    pub(crate) fn ep_capture_file_header(nanoseconds: bool) -> EpFileHeader;
    pub(crate) fn ep_capture_record_head(seconds: u32, fraction: u32, len: u32, wire_len: u32) -> EpRecordHead;
    pub(crate) fn ep_checksum(bytes: *const u8, bytes_len: usize) -> u16;
    pub(crate) fn ep_checksum_is_right(bytes: *const u8, bytes_len: usize) -> bool;
    pub(crate) fn ep_tcp_options(packet: *const EpPacket) -> EpPart;
    pub(crate) fn ep_tcp_option_next(bytes: *const u8, bytes_len: usize, left: *mut EpPart) -> EpTcpOption;
    pub(crate) fn ep_ipv4_options(packet: *const EpPacket) -> EpPart;
    pub(crate) fn ep_ip_extensions(packet: *const EpPacket) -> EpExtensions;
    pub(crate) fn ep_extension_next(bytes: *const u8, bytes_len: usize, left: *mut EpExtensions) -> EpExtension;
    pub(crate) fn ep_icmpv4_fields(message: *const u8, message_len: usize) -> EpIcmpFields;
    pub(crate) fn ep_icmpv6_fields(message: *const u8, message_len: usize) -> EpIcmpFields;
    pub(crate) fn ep_ndp_message(message: *const u8, message_len: usize) -> EpNdp;
    pub(crate) fn ep_ndp_options(message: *const u8, message_len: usize) -> EpPart;
    pub(crate) fn ep_ndp_option_next(bytes: *const u8, bytes_len: usize, left: *mut EpPart) -> EpNdpOption;
    pub(crate) fn ep_igmp_message(message: *const u8, message_len: usize) -> EpGroupMessage;
    pub(crate) fn ep_mld_message(message: *const u8, message_len: usize) -> EpGroupMessage;
    pub(crate) fn ep_group_record_next(bytes: *const u8, bytes_len: usize, left: *mut EpGroupRecords) -> EpGroupRecord;
    pub(crate) fn ep_pool_new(pool: *mut EpPool) -> u32;
    pub(crate) fn ep_pool_add(pool: *mut EpPool, frame: *const u8, frame_len: usize, time: u64, channel: u32, output: *mut u8, output_len: usize) -> EpAdded;
    pub(crate) fn ep_pool_add_linux_sll(pool: *mut EpPool, packet: *const u8, packet_len: usize, time: u64, channel: u32, output: *mut u8, output_len: usize) -> EpAdded;
    pub(crate) fn ep_pool_add_ip(pool: *mut EpPool, packet: *const u8, packet_len: usize, time: u64, channel: u32, output: *mut u8, output_len: usize) -> EpAdded;
    pub(crate) fn ep_pool_take(pool: *mut EpPool, output: *mut u8, output_len: usize) -> EpAdded;
    pub(crate) fn ep_pool_forget_before(pool: *mut EpPool, time: u64) -> u32;
    pub(crate) fn ep_pool_open(pool: *mut EpPool) -> usize;
    pub(crate) fn ep_pool_free(pool: *mut EpPool);
    pub(crate) fn ep_slice_ethernet(bytes: *const u8, bytes_len: usize) -> EpPacket;
    pub(crate) fn ep_slice_linux_sll(bytes: *const u8, bytes_len: usize) -> EpPacket;
    pub(crate) fn ep_slice_ip(bytes: *const u8, bytes_len: usize) -> EpPacket;
    pub(crate) fn ep_slice_ethernet_lax(bytes: *const u8, bytes_len: usize) -> EpLaxPacket;
    pub(crate) fn ep_slice_linux_sll_lax(bytes: *const u8, bytes_len: usize) -> EpLaxPacket;
    pub(crate) fn ep_slice_ip_lax(bytes: *const u8, bytes_len: usize) -> EpLaxPacket;
    pub(crate) fn ep_stream_new(stream: *mut EpStream, window: usize) -> u32;
    pub(crate) fn ep_stream_add(stream: *mut EpStream, sequence_number: u32, flags: *const EpSegmentFlags, payload: *const u8, payload_len: usize) -> EpStreamAdded;
    pub(crate) fn ep_stream_read(stream: *mut EpStream, output: *mut u8, output_len: usize) -> usize;
    pub(crate) fn ep_stream_progress_of(stream: *mut EpStream) -> EpStreamProgress;
    pub(crate) fn ep_stream_free(stream: *mut EpStream);
    pub(crate) fn ep_flow_key_ethernet(frame: *const u8, frame_len: usize, channel: u32) -> EpPacketKey;
    pub(crate) fn ep_flow_key_linux_sll(packet: *const u8, packet_len: usize, channel: u32) -> EpPacketKey;
    pub(crate) fn ep_flow_key_ip(packet: *const u8, packet_len: usize, channel: u32) -> EpPacketKey;
    pub(crate) fn ep_connection_state_after(state: *const EpConnectionState, direction: u32, flags: *const EpSegmentFlags) -> EpConnectionState;
    pub(crate) fn ep_verdict_ethernet(bytes: *const u8, bytes_len: usize) -> u32;
    pub(crate) fn ep_verdict_linux_sll(bytes: *const u8, bytes_len: usize) -> u32;
    pub(crate) fn ep_verdict_ip(bytes: *const u8, bytes_len: usize) -> u32;
    pub(crate) fn netlines_answers(text: *const u8, text_len: usize, output: *mut u8, output_len: usize, written: *mut usize) -> u32;
    pub(crate) fn netlines_open(session: *mut NetlinesSession) -> u32;
    pub(crate) fn netlines_feed(session: *mut NetlinesSession, chunk: *const u8, chunk_len: usize, output: *mut u8, output_len: usize, written: *mut usize) -> u32;
    pub(crate) fn netlines_finish(session: *mut NetlinesSession, output: *mut u8, output_len: usize, written: *mut usize) -> u32;
    pub(crate) fn netlines_close(session: *mut NetlinesSession);
}

// The sizes of the exports' sources, whose offsets are in tests/layout.rs.
const _: () = assert!(std::mem::size_of::<EpRefusal>() == 40);
const _: () = assert!(std::mem::size_of::<EpPartRefusal>() == 24);
const _: () = assert!(std::mem::size_of::<EpMessage>() == 56);
const _: () = assert!(std::mem::size_of::<EpAdded>() == 128);
const _: () = assert!(std::mem::size_of::<EpBuilt>() == 16);
const _: () = assert!(std::mem::size_of::<EpCapture>() == 16);
const _: () = assert!(std::mem::size_of::<EpPart>() == 16);
const _: () = assert!(std::mem::size_of::<EpCapturedPacket>() == 64);
const _: () = assert!(std::mem::size_of::<EpCaptureError>() == 32);
const _: () = assert!(std::mem::size_of::<EpCaptured>() == 112);
const _: () = assert!(std::mem::size_of::<EpCaptureEnding>() == 40);
const _: () = assert!(std::mem::size_of::<EpSegmentFlags>() == 4);
const _: () = assert!(std::mem::size_of::<EpConnectionState>() == 8);
const _: () = assert!(std::mem::size_of::<EpExtensions>() == 24);
const _: () = assert!(std::mem::size_of::<EpExtension>() == 56);
const _: () = assert!(std::mem::size_of::<EpGroupRecords>() == 24);
const _: () = assert!(std::mem::size_of::<EpGroupMessage>() == 80);
const _: () = assert!(std::mem::size_of::<EpGroupRecord>() == 88);
const _: () = assert!(std::mem::size_of::<EpIcmpFields>() == 32);
const _: () = assert!(std::mem::size_of::<EpNdp>() == 64);
const _: () = assert!(std::mem::size_of::<EpLink>() == 32);
const _: () = assert!(std::mem::size_of::<EpTag>() == 48);
const _: () = assert!(std::mem::size_of::<EpIpv4>() == 72);
const _: () = assert!(std::mem::size_of::<EpIpv6>() == 104);
const _: () = assert!(std::mem::size_of::<EpArp>() == 88);
const _: () = assert!(std::mem::size_of::<EpUdp>() == 40);
const _: () = assert!(std::mem::size_of::<EpTcp>() == 64);
const _: () = assert!(std::mem::size_of::<EpIcmp>() == 40);
const _: () = assert!(std::mem::size_of::<EpPacket>() == 656);
const _: () = assert!(std::mem::size_of::<EpLaxPacket>() == 704);
const _: () = assert!(std::mem::size_of::<EpNdpOption>() == 96);
const _: () = assert!(std::mem::size_of::<EpEndpoint>() == 20);
const _: () = assert!(std::mem::size_of::<EpFlowKey>() == 52);
const _: () = assert!(std::mem::size_of::<EpPacketKey>() == 60);
const _: () = assert!(std::mem::size_of::<EpPlan>() == 248);
const _: () = assert!(std::mem::size_of::<EpPlannedExtensions>() == 104);
const _: () = assert!(std::mem::size_of::<EpPool>() == 16);
const _: () = assert!(std::mem::size_of::<EpStream>() == 16);
const _: () = assert!(std::mem::size_of::<EpConflicts>() == 16);
const _: () = assert!(std::mem::size_of::<EpStreamAdded>() == 40);
const _: () = assert!(std::mem::size_of::<EpGap>() == 16);
const _: () = assert!(std::mem::size_of::<EpStreamProgress>() == 56);
const _: () = assert!(std::mem::size_of::<EpTcpBlock>() == 8);
const _: () = assert!(std::mem::size_of::<EpTcpOption>() == 64);
const _: () = assert!(std::mem::size_of::<EpFileHeader>() == 24);
const _: () = assert!(std::mem::size_of::<EpRecordHead>() == 16);
const _: () = assert!(std::mem::size_of::<NetlinesSession>() == 16);
