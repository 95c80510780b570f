"""The exports and their structs, for ctypes. Written by tools/bindings."""

import ctypes as c

# More bytes of a capture have to follow, or it ends.
MORE_BYTES = 7
# From the lower endpoint to the higher one.
FROM_LOWER = 1
# From the higher endpoint to the lower one.
FROM_HIGHER = 2
# No segment of the connection came.
STATE_UNSEEN = 0
# The endpoint that opens it sent SYN.
STATE_SYN_SENT = 1
# The other endpoint answered with SYN, and the first one didn't acknowledge that.
STATE_SYN_RECEIVED = 2
# Both endpoints may send.
STATE_ESTABLISHED = 3
# One endpoint sent FIN.
STATE_CLOSING = 4
# Both endpoints sent FIN.
STATE_CLOSED = 5
# An endpoint sent RST before both sent FIN.
STATE_RESET = 6
# No message of a multicast group.
GROUP_NONE = 0
# A query without sources: version 1 of MLD, 1 or 2 of IGMP.
GROUP_QUERY = 1
# A query that may name sources: version 2 of MLD, 3 of IGMP.
GROUP_QUERY_WITH_SOURCES = 2
# A report of version 1: of one group.
GROUP_REPORT = 3
# Of IGMP: a report of version 2: of one group.
GROUP_REPORT_V2 = 4
# A group is left.
GROUP_LEAVE = 5
# A report of records: version 2 of MLD, 3 of IGMP.
GROUP_RECORDS = 6
# A message that is shorter than its type needs.
GROUP_TOO_SHORT = 7
# No message, since there are too few bytes, or not the 20 of a timestamp message.
ICMP_NONE = 0
# A type and code that have no other kind.
ICMP_UNKNOWN = 1
# An echo request.
ICMP_ECHO_REQUEST = 2
# The reply to one.
ICMP_ECHO_REPLY = 3
# A packet couldn't be delivered.
ICMP_DESTINATION_UNREACHABLE = 4
# Of ICMPv4: another gateway is the better one.
ICMP_REDIRECT = 5
# A packet or its fragments took too long.
ICMP_TIME_EXCEEDED = 6
# A packet's header has a fault.
ICMP_PARAMETER_PROBLEM = 7
# Of ICMPv4: a request for the receiver's time.
ICMP_TIMESTAMP_REQUEST = 8
# Of ICMPv4: the reply to one.
ICMP_TIMESTAMP_REPLY = 9
# Of ICMPv6: a packet is bigger than the next link takes.
ICMP_PACKET_TOO_BIG = 10
# It is done, or there was nothing to do.
DONE = 0
# The output is too short.
NO_ROOM = 1
# Out of memory.
NO_MEMORY = 2
# A packet, a fragment, a segment, a field of a plan, a payload or a capture is refused.
REFUSED = 3
# The pool, stream or capture isn't open, or is open already, or the pool keeps a message.
WRONG_STATE = 4
# A message is complete.
COMPLETED = 5
# No option is left.
NDP_OPTION_NONE = 0
# An option of another type, or of a length that its type doesn't have.
NDP_OPTION_UNKNOWN = 1
# The sender's link-layer address.
NDP_OPTION_SOURCE_LINK_LAYER_ADDRESS = 2
# The target's link-layer address.
NDP_OPTION_TARGET_LINK_LAYER_ADDRESS = 3
# A prefix.
NDP_OPTION_PREFIX_INFORMATION = 4
# The start of the packet that is redirected.
NDP_OPTION_REDIRECTED_HEADER = 5
# The link's greatest packet.
NDP_OPTION_MTU = 6
# Recursive DNS servers.
NDP_OPTION_RECURSIVE_DNS_SERVER = 7
# Domains in which names are searched.
NDP_OPTION_DNS_SEARCH_LIST = 8
# No option: `fault` says why, and nothing is read after it.
NDP_OPTION_FAULT = 9
# A packet that has no TCP segment whose header is whole, or is a fragment.
NO_SEGMENT = 6
# Nothing is refused.
REFUSAL_NONE = 0
# A layer has too few bytes.
REFUSAL_TOO_FEW_BYTES = 1
# A packet type of a Linux cooked capture above 4.
REFUSAL_LINUX_SLL_PACKET_TYPE = 2
# A hardware type of a Linux cooked capture that isn't read; all are today.
REFUSAL_LINUX_SLL_HARDWARE_TYPE = 3
# A MACsec version other than 0.
REFUSAL_MACSEC_VERSION = 4
# A MACsec short length below that of the ether type.
REFUSAL_MACSEC_SHORT_LEN = 5
# An IP version other than 4 and 6.
REFUSAL_IP_VERSION = 6
# An IP version other than 4 where the ether type names IPv4.
REFUSAL_IPV4_VERSION = 7
# A length of an IPv4 header (IHL) below 5.
REFUSAL_IPV4_HEADER_LEN = 8
# An IP version other than 6 where the ether type names IPv6.
REFUSAL_IPV6_VERSION = 9
# A payload length 0 of an authentication header.
REFUSAL_AUTH_HEADER_LEN = 10
# Hop-by-hop options after another extension header.
REFUSAL_HOP_BY_HOP_NOT_AT_START = 11
# A TCP data offset below 5.
REFUSAL_TCP_DATA_OFFSET = 12
# A segment that ends after the window.
SEGMENT_OUTSIDE_WINDOW = 1
# A segment with a byte or FIN after FIN, or whose FIN stands before a byte or FIN.
SEGMENT_AFTER_FIN = 2
# A segment after the connection was reset.
SEGMENT_AFTER_RESET = 3
# No such link header, or none before an ARP packet.
FIELD_LINK = 1
# A packet type of a cooked capture above 4.
FIELD_PACKET_TYPE = 2
# More than two tags, or tags without an Ethernet II header.
FIELD_TAG_COUNT = 3
# An identifier of the first tag above 4095.
FIELD_OUTER_VLAN_ID = 4
# A priority of the first tag above 7.
FIELD_OUTER_PRIORITY = 5
# An identifier of the second tag above 4095.
FIELD_INNER_VLAN_ID = 6
# A priority of the second tag above 7.
FIELD_INNER_PRIORITY = 7
# No such IP version.
FIELD_IP_VERSION = 8
# A differentiated services code point above 63.
FIELD_DSCP = 9
# An explicit congestion notification above 3.
FIELD_ECN = 10
# An offset of a fragment over IPv4 above 8191.
FIELD_FRAGMENT_OFFSET = 11
# More than 40 bytes of IPv4's options, or no whole words of 4.
FIELD_IPV4_OPTIONS_LEN = 12
# A flow label above 1048575.
FIELD_FLOW_LABEL = 13
# Hop-by-hop options of a length that no header states, not within the bytes, or over IPv4.
FIELD_HOP_BY_HOP_OPTIONS = 14
# The same of destination options before a routing header.
FIELD_DESTINATION_OPTIONS = 15
# The same of a routing header.
FIELD_ROUTING = 16
# A fragment header whose offset is above 8191, or over IPv4.
FIELD_FRAGMENT_HEADER = 17
# An integrity check value of a length that no header states, or not within the bytes.
FIELD_AUTHENTICATION = 18
# The same as of destination options, of those after a routing header, or no routing header.
FIELD_FINAL_DESTINATION_OPTIONS = 19
# No such transport header, or ICMPv6 over IPv4.
FIELD_TRANSPORT = 20
# More than 40 bytes of TCP's options.
FIELD_OPTIONS_LEN = 21
# Hardware addresses that differ in length, have more than 255 bytes, or aren't within the bytes.
FIELD_HARDWARE_ADDRESSES = 22
# The same of protocol addresses.
FIELD_PROTOCOL_ADDRESSES = 23
# A payload that is longer than the length field of the IP header can state.
FIELD_PAYLOAD = 24
LAYER_LINUX_SLL_HEADER = 1
LAYER_ETHERNET2_HEADER = 2
LAYER_ETHER_PAYLOAD = 3
LAYER_VLAN_HEADER = 4
LAYER_MACSEC_HEADER = 5
LAYER_MACSEC_PACKET = 6
LAYER_IP_HEADER = 7
LAYER_IPV4_HEADER = 8
LAYER_IPV4_PACKET = 9
LAYER_IP_AUTH_HEADER = 10
LAYER_IPV6_HEADER = 11
LAYER_IPV6_PACKET = 12
LAYER_IPV6_EXT_HEADER = 13
LAYER_IPV6_HOP_BY_HOP_HEADER = 14
LAYER_IPV6_DEST_OPTIONS_HEADER = 15
LAYER_IPV6_ROUTE_HEADER = 16
LAYER_IPV6_FRAG_HEADER = 17
LAYER_UDP_HEADER = 18
LAYER_UDP_PAYLOAD = 19
LAYER_TCP_HEADER = 20
LAYER_ICMPV4 = 21
LAYER_ICMPV4_TIMESTAMP = 22
LAYER_ICMPV4_TIMESTAMP_REPLY = 23
LAYER_ICMPV6 = 24
LAYER_ARP = 25
SOURCE_SLICE = 1
SOURCE_MACSEC_SHORT_LENGTH = 2
SOURCE_IPV4_HEADER_TOTAL_LEN = 3
SOURCE_IPV6_HEADER_PAYLOAD_LEN = 4
SOURCE_UDP_HEADER_LEN = 5
SOURCE_TCP_HEADER_LEN = 6
SOURCE_ARP_ADDR_LENGTHS = 7

# The answers are written.
NETLINES_ANSWERED = 0
# The output is too short for the answers.
NETLINES_NO_ROOM = 1
# Out of memory.
NETLINES_NO_MEMORY = 2
# The session isn't open, or its text has ended, or it is open already.
NETLINES_WRONG_STATE = 3


class EpRefusal(c.Structure):
    """Why a packet is refused. All fields are 0 where it isn't."""

    _fields_ = [
        ("kind", c.c_uint32),
        ("layer", c.c_uint32),
        ("needed", c.c_size_t),
        ("there", c.c_size_t),
        ("place", c.c_size_t),
        ("source", c.c_uint32),
        ("value", c.c_uint32),
    ]


class EpPartRefusal(c.Structure):
    """Why a fragment is refused. All fields are 0 where it isn't."""

    _fields_ = [
        ("kind", c.c_uint32),
        ("offset", c.c_uint16),
        ("previous_end", c.c_uint16),
        ("end", c.c_uint16),
        ("len", c.c_size_t),
    ]


class EpMessage(c.Structure):
    """A reassembled message. All fields are 0 where there is none."""

    _fields_ = [
        ("len", c.c_size_t),
        ("ip_version", c.c_uint32),
        ("number", c.c_uint8),
        ("ipv4_source", c.c_uint8 * 4),
        ("ipv4_destination", c.c_uint8 * 4),
        ("ipv6_source", c.c_uint8 * 16),
        ("ipv6_destination", c.c_uint8 * 16),
    ]


class EpAdded(c.Structure):
    """What became of a frame that a pool was given, or of the message that it kept."""

    _fields_ = [
        ("status", c.c_uint32),
        ("refusal", EpRefusal),
        ("part", EpPartRefusal),
        ("message", EpMessage),
    ]


class EpBuilt(c.Structure):
    """The result of building a packet."""

    _fields_ = [
        ("status", c.c_uint32),
        ("field", c.c_uint32),
        ("len", c.c_size_t),
    ]


class EpCapture(c.Structure):
    """A capture file, pcap or pcapng, whose bytes are passed from its first byte on. It starts as zeros, and only these calls change it."""

    _fields_ = [
        ("is_open", c.c_bool),
        ("held", c.c_void_p),
    ]


class EpPart(c.Structure):
    """Where bytes are in those that were passed."""

    _fields_ = [
        ("offset", c.c_size_t),
        ("len", c.c_size_t),
    ]


class EpCapturedPacket(c.Structure):
    """A packet of a capture."""

    _fields_ = [
        ("number", c.c_uint64),
        ("time", c.c_uint64),
        ("interface_number", c.c_uint32),
        ("wire_len", c.c_uint32),
        ("link", c.c_uint32),
        ("header_len", c.c_uint32),
        ("header", c.c_uint8 * 14),
        ("bytes", EpPart),
    ]


class EpCaptureError(c.Structure):
    """Why a capture is refused, and where."""

    _fields_ = [
        ("kind", c.c_uint32),
        ("value", c.c_uint32),
        ("minor", c.c_uint32),
        ("block_type", c.c_uint32),
        ("packet", c.c_uint64),
        ("offset", c.c_uint64),
    ]


class EpCaptured(c.Structure):
    """What is at the start of some bytes of a capture."""

    _fields_ = [
        ("status", c.c_uint32),
        ("done", c.c_size_t),
        ("packet", EpCapturedPacket),
        ("error", EpCaptureError),
    ]


class EpCaptureEnding(c.Structure):
    """How a capture ends."""

    _fields_ = [
        ("status", c.c_uint32),
        ("error", EpCaptureError),
    ]


class EpSegmentFlags(c.Structure):
    """Control flags of a TCP segment (RFC 9293, section 3.1)."""

    _fields_ = [
        ("syn", c.c_bool),
        ("ack", c.c_bool),
        ("fin", c.c_bool),
        ("rst", c.c_bool),
    ]


class EpConnectionState(c.Structure):
    """How far a connection came. Zeros are a connection of which no segment came."""

    _fields_ = [
        ("state", c.c_uint32),
        ("direction", c.c_uint32),
    ]


class EpExtensions(c.Structure):
    """The extension headers of an IP packet that are left."""

    _fields_ = [
        ("left", EpPart),
        ("next_header", c.c_uint8),
    ]


class EpExtension(c.Structure):
    """An extension header of IPv6 (RFC 8200, section 4), or the authentication header of IPv4 (RFC 4302). The fields of other kinds are 0."""

    _fields_ = [
        ("header", EpPart),
        ("payload", EpPart),
        ("layer", c.c_uint32),
        ("identification", c.c_uint32),
        ("spi", c.c_uint32),
        ("sequence_number", c.c_uint32),
        ("fragment_offset", c.c_uint16),
        ("number", c.c_uint8),
        ("next_header", c.c_uint8),
        ("more_fragments", c.c_bool),
    ]


class EpGroupRecords(c.Structure):
    """The records of groups that are left in a report."""

    _fields_ = [
        ("left", EpPart),
        ("count", c.c_uint32),
        ("is_ipv6", c.c_bool),
    ]


class EpGroupMessage(c.Structure):
    """A message of a multicast group: of IGMP over IPv4 (RFC 2236; RFC 3376), or of multicast listener discovery over IPv6 (RFC 2710; RFC 3810). The fields of other kinds are 0."""

    _fields_ = [
        ("sources", EpPart),
        ("records", EpGroupRecords),
        ("needed", c.c_size_t),
        ("there", c.c_size_t),
        ("kind", c.c_uint32),
        ("max_response", c.c_uint16),
        ("group", c.c_uint8 * 16),
    ]


class EpGroupRecord(c.Structure):
    """The record of a group in a report (RFC 3376, section 4.2.4; RFC 3810, section 5.2.5). What it doesn't have is 0."""

    _fields_ = [
        ("bytes", EpPart),
        ("sources", EpPart),
        ("auxiliary_data", EpPart),
        ("needed", c.c_size_t),
        ("there", c.c_size_t),
        ("kind", c.c_uint32),
        ("record_type", c.c_uint8),
        ("group", c.c_uint8 * 16),
    ]


class EpIcmpFields(c.Structure):
    """What an ICMP message says beside its type and code, by its kind. The fields of other kinds are 0."""

    _fields_ = [
        ("kind", c.c_uint32),
        ("mtu", c.c_uint32),
        ("pointer", c.c_uint32),
        ("originate_timestamp", c.c_uint32),
        ("receive_timestamp", c.c_uint32),
        ("transmit_timestamp", c.c_uint32),
        ("id", c.c_uint16),
        ("sequence_number", c.c_uint16),
        ("gateway", c.c_uint8 * 4),
    ]


class EpNdp(c.Structure):
    """A message of neighbor discovery for IPv6 (RFC 4861, section 4). The fields of other types are 0."""

    _fields_ = [
        ("options_offset", c.c_size_t),
        ("reachable_time", c.c_uint32),
        ("retrans_timer", c.c_uint32),
        ("router_lifetime", c.c_uint16),
        ("icmp_type", c.c_uint8),
        ("hop_limit", c.c_uint8),
        ("managed", c.c_bool),
        ("other", c.c_bool),
        ("router", c.c_bool),
        ("solicited", c.c_bool),
        ("overrides", c.c_bool),
        ("target", c.c_uint8 * 16),
        ("destination", c.c_uint8 * 16),
    ]


class EpLink(c.Structure):
    """A link header. The fields of other kinds are 0."""

    _fields_ = [
        ("kind", c.c_uint32),
        ("protocol", c.c_uint16),
        ("destination", c.c_uint8 * 6),
        ("source", c.c_uint8 * 6),
        ("packet_type", c.c_uint16),
        ("hardware_type", c.c_uint16),
        ("address_len", c.c_uint16),
        ("address", c.c_uint8 * 8),
    ]


class EpTag(c.Structure):
    """A tag between link header and packet. The fields of other kinds are 0."""

    _fields_ = [
        ("header", EpPart),
        ("kind", c.c_uint32),
        ("ether_type", c.c_uint16),
        ("vlan_id", c.c_uint16),
        ("priority", c.c_uint8),
        ("drop_eligible", c.c_bool),
        ("end_station", c.c_bool),
        ("single_copy_broadcast", c.c_bool),
        ("encrypted", c.c_bool),
        ("changed", c.c_bool),
        ("has_channel", c.c_bool),
        ("association", c.c_uint8),
        ("short_len", c.c_uint8),
        ("packet_number", c.c_uint32),
        ("channel", c.c_uint64),
    ]


class EpIpv4(c.Structure):
    """An IPv4 packet (RFC 791). Its options are the last bytes of its header."""

    _fields_ = [
        ("header", EpPart),
        ("extensions", EpPart),
        ("payload", EpPart),
        ("source", c.c_uint8 * 4),
        ("destination", c.c_uint8 * 4),
        ("total_len", c.c_uint16),
        ("identification", c.c_uint16),
        ("fragment_offset", c.c_uint16),
        ("header_checksum", c.c_uint16),
        ("dscp", c.c_uint8),
        ("ecn", c.c_uint8),
        ("time_to_live", c.c_uint8),
        ("protocol", c.c_uint8),
        ("payload_number", c.c_uint8),
        ("dont_fragment", c.c_bool),
        ("more_fragments", c.c_bool),
        ("is_part", c.c_bool),
    ]


class EpIpv6(c.Structure):
    """An IPv6 packet (RFC 8200)."""

    _fields_ = [
        ("header", EpPart),
        ("extensions", EpPart),
        ("payload", EpPart),
        ("source", c.c_uint8 * 16),
        ("destination", c.c_uint8 * 16),
        ("flow_label", c.c_uint32),
        ("identification", c.c_uint32),
        ("payload_length", c.c_uint16),
        ("fragment_offset", c.c_uint16),
        ("traffic_class", c.c_uint8),
        ("next_header", c.c_uint8),
        ("hop_limit", c.c_uint8),
        ("payload_number", c.c_uint8),
        ("has_fragment_header", c.c_bool),
        ("more_fragments", c.c_bool),
        ("is_part", c.c_bool),
    ]


class EpArp(c.Structure):
    """An ARP packet (RFC 826)."""

    _fields_ = [
        ("packet", EpPart),
        ("sender_hardware", EpPart),
        ("sender_protocol", EpPart),
        ("target_hardware", EpPart),
        ("target_protocol", EpPart),
        ("hardware_type", c.c_uint16),
        ("protocol_type", c.c_uint16),
        ("operation", c.c_uint16),
    ]


class EpUdp(c.Structure):
    """A UDP datagram (RFC 768)."""

    _fields_ = [
        ("header", EpPart),
        ("payload", EpPart),
        ("source_port", c.c_uint16),
        ("destination_port", c.c_uint16),
        ("stated_len", c.c_uint16),
        ("checksum", c.c_uint16),
    ]


class EpTcp(c.Structure):
    """A TCP segment (RFC 9293). Its options follow the first 20 bytes of the header."""

    _fields_ = [
        ("header", EpPart),
        ("payload", EpPart),
        ("sequence_number", c.c_uint32),
        ("acknowledgment_number", c.c_uint32),
        ("source_port", c.c_uint16),
        ("destination_port", c.c_uint16),
        ("window_size", c.c_uint16),
        ("checksum", c.c_uint16),
        ("urgent_pointer", c.c_uint16),
        ("ns", c.c_bool),
        ("fin", c.c_bool),
        ("syn", c.c_bool),
        ("rst", c.c_bool),
        ("psh", c.c_bool),
        ("ack", c.c_bool),
        ("urg", c.c_bool),
        ("ece", c.c_bool),
        ("cwr", c.c_bool),
    ]


class EpIcmp(c.Structure):
    """An ICMP message of either version (RFC 792; RFC 4443)."""

    _fields_ = [
        ("header", EpPart),
        ("payload", EpPart),
        ("checksum", c.c_uint16),
        ("icmp_type", c.c_uint8),
        ("code", c.c_uint8),
        ("rest", c.c_uint8 * 4),
    ]


class EpPacket(c.Structure):
    """The fields of a packet. Every [`EpPart`] counts from the start of the bytes that were passed. The fields of a layer that isn't there are 0, and all but `refusal` are where the packet is refused."""

    _fields_ = [
        ("refusal", EpRefusal),
        ("link", EpLink),
        ("tag_count", c.c_uint32),
        ("tags", EpTag * 3),
        ("ether_payload", EpPart),
        ("net", c.c_uint32),
        ("transport", c.c_uint32),
        ("ipv4", EpIpv4),
        ("ipv6", EpIpv6),
        ("arp", EpArp),
        ("udp", EpUdp),
        ("tcp", EpTcp),
        ("icmp", EpIcmp),
    ]


class EpLaxPacket(c.Structure):
    """The fields of a packet as far as it is there, also where it was cut off or a header breaks its format."""

    _fields_ = [
        ("packet", EpPacket),
        ("stop", EpRefusal),
        ("stop_layer", c.c_uint32),
        ("incomplete", c.c_bool),
    ]


class EpNdpOption(c.Structure):
    """An option of neighbor discovery (RFC 4861, section 4.6; RFC 8106, section 5), or why the bytes are none. The fields of other kinds are 0."""

    _fields_ = [
        ("option", EpPart),
        ("carried", EpPart),
        ("needed", c.c_size_t),
        ("there", c.c_size_t),
        ("kind", c.c_uint32),
        ("fault", c.c_uint32),
        ("lifetime", c.c_uint32),
        ("valid_lifetime", c.c_uint32),
        ("preferred_lifetime", c.c_uint32),
        ("mtu", c.c_uint32),
        ("option_type", c.c_uint8),
        ("prefix_length", c.c_uint8),
        ("on_link", c.c_bool),
        ("autonomous", c.c_bool),
        ("prefix", c.c_uint8 * 16),
    ]


class EpEndpoint(c.Structure):
    """One end of a TCP connection."""

    _fields_ = [
        ("version", c.c_uint16),
        ("port", c.c_uint16),
        ("address", c.c_uint8 * 16),
    ]


class EpFlowKey(c.Structure):
    """What the segments of a TCP connection have in common, whichever way they go. There is no padding: keys are the same where their bytes are."""

    _fields_ = [
        ("lower", EpEndpoint),
        ("higher", EpEndpoint),
        ("channel", c.c_uint32),
        ("vlan_ids", c.c_uint16 * 3),
        ("vlan_count", c.c_uint16),
    ]


class EpPacketKey(c.Structure):
    """The key of a packet."""

    _fields_ = [
        ("status", c.c_uint32),
        ("direction", c.c_uint32),
        ("key", EpFlowKey),
    ]


class EpPlan(c.Structure):
    """The headers of a packet to build. The fields of headers that it doesn't have are ignored. Lengths, checksums, ether types and the numbers of headers follow from it."""

    _fields_ = [
        ("link", c.c_uint32),
        ("destination", c.c_uint8 * 6),
        ("source", c.c_uint8 * 6),
        ("packet_type", c.c_uint16),
        ("address_len", c.c_uint16),
        ("address", c.c_uint8 * 8),
        ("tag_count", c.c_uint32),
        ("outer_vlan_id", c.c_uint16),
        ("inner_vlan_id", c.c_uint16),
        ("outer_priority", c.c_uint8),
        ("inner_priority", c.c_uint8),
        ("outer_drop_eligible", c.c_bool),
        ("inner_drop_eligible", c.c_bool),
        ("ip_version", c.c_uint32),
        ("ipv4_source", c.c_uint8 * 4),
        ("ipv4_destination", c.c_uint8 * 4),
        ("ipv6_source", c.c_uint8 * 16),
        ("ipv6_destination", c.c_uint8 * 16),
        ("ipv4_options_len", c.c_size_t),
        ("ipv4_options", c.c_uint8 * 40),
        ("identification", c.c_uint16),
        ("fragment_offset", c.c_uint16),
        ("dscp", c.c_uint8),
        ("ecn", c.c_uint8),
        ("may_fragment", c.c_bool),
        ("more_fragments", c.c_bool),
        ("flow_label", c.c_uint32),
        ("traffic_class", c.c_uint8),
        ("hops", c.c_uint8),
        ("payload_number", c.c_uint8),
        ("transport", c.c_uint32),
        ("source_port", c.c_uint16),
        ("destination_port", c.c_uint16),
        ("is_reply", c.c_bool),
        ("echo_id", c.c_uint16),
        ("echo_sequence", c.c_uint16),
        ("icmp_is_raw", c.c_bool),
        ("icmp_type", c.c_uint8),
        ("icmp_code", c.c_uint8),
        ("icmp_bytes", c.c_uint8 * 4),
        ("sequence_number", c.c_uint32),
        ("acknowledgment_number", c.c_uint32),
        ("window_size", c.c_uint16),
        ("urgent_pointer", c.c_uint16),
        ("ns", c.c_bool),
        ("fin", c.c_bool),
        ("syn", c.c_bool),
        ("rst", c.c_bool),
        ("psh", c.c_bool),
        ("ack", c.c_bool),
        ("urg", c.c_bool),
        ("ece", c.c_bool),
        ("cwr", c.c_bool),
        ("options_len", c.c_size_t),
        ("options", c.c_uint8 * 40),
    ]


class EpPlannedExtensions(c.Structure):
    """The extension headers of a packet to build (RFC 8200, section 4; RFC 4302). They are written in the order of RFC 8200, section 4.1: hop-by-hop options, destination options, routing, fragment, authentication, destination options. Over IPv4 there is authentication alone. A part of options or routing is what follows the first two bytes of the header: 6 bytes and a multiple of 8, at most 2046; no bytes stand for no header. Numbers and lengths of headers follow from it."""

    _fields_ = [
        ("hop_by_hop_options", EpPart),
        ("destination_options", EpPart),
        ("routing", EpPart),
        ("final_destination_options", EpPart),
        ("integrity_check_value", EpPart),
        ("identification", c.c_uint32),
        ("spi", c.c_uint32),
        ("sequence_number", c.c_uint32),
        ("fragment_offset", c.c_uint16),
        ("more_fragments", c.c_bool),
        ("has_fragment_header", c.c_bool),
        ("has_authentication", c.c_bool),
    ]


class EpPool(c.Structure):
    """A pool that reassembles datagrams. It starts as zeros, and only these calls change it."""

    _fields_ = [
        ("is_open", c.c_bool),
        ("held", c.c_void_p),
    ]


class EpStream(c.Structure):
    """The bytes that one end of a TCP connection sent, put together as its segments come. Positions count from 0, the number after that of SYN or, where SYN wasn't seen, that of the first segment. It starts as zeros, and only these calls change it."""

    _fields_ = [
        ("is_open", c.c_bool),
        ("held", c.c_void_p),
    ]


class EpConflicts(c.Structure):
    """Positions at which a segment has another byte than one before it. The first byte stays."""

    _fields_ = [
        ("count", c.c_uint64),
        ("first", c.c_uint64),
    ]


class EpStreamAdded(c.Structure):
    """What became of a segment that a stream was given."""

    _fields_ = [
        ("status", c.c_uint32),
        ("refusal", c.c_uint32),
        ("refused_at", c.c_uint64),
        ("position", c.c_uint64),
        ("conflicts", EpConflicts),
    ]


class EpGap(c.Structure):
    """Positions whose bytes are missing. Both are 0 where there is no gap."""

    _fields_ = [
        ("start", c.c_uint64),
        ("end", c.c_uint64),
    ]


class EpStreamProgress(c.Structure):
    """How far a stream came. All fields are 0 where it isn't open."""

    _fields_ = [
        ("available", c.c_size_t),
        ("consumed", c.c_uint64),
        ("gap", EpGap),
        ("conflicts", EpConflicts),
        ("is_finished", c.c_bool),
        ("is_reset", c.c_bool),
        ("joined_late", c.c_bool),
    ]


class EpTcpBlock(c.Structure):
    """A block of bytes that arrived after a gap (RFC 2018, section 3)."""

    _fields_ = [
        ("left_edge", c.c_uint32),
        ("right_edge", c.c_uint32),
    ]


class EpTcpOption(c.Structure):
    """An option of a TCP header, or why the bytes are none. The fields of other kinds are 0."""

    _fields_ = [
        ("blocks", EpTcpBlock * 4),
        ("there", c.c_size_t),
        ("timestamp", c.c_uint32),
        ("echoed_timestamp", c.c_uint32),
        ("fault", c.c_uint32),
        ("block_count", c.c_uint32),
        ("maximum_segment_size", c.c_uint16),
        ("kind", c.c_uint8),
        ("window_scale", c.c_uint8),
        ("needed", c.c_uint8),
        ("stated_len", c.c_uint8),
    ]


class EpFileHeader(c.Structure):
    """The header of a pcap file."""

    _fields_ = [
        ("bytes", c.c_uint8 * 24),
    ]


class EpRecordHead(c.Structure):
    """The head of a packet record of a pcap file, which the captured bytes of the packet follow."""

    _fields_ = [
        ("bytes", c.c_uint8 * 16),
    ]


class NetlinesSession(c.Structure):
    """Lines that come in chunks. It starts as zeros, and is changed by these calls alone."""

    _fields_ = [
        ("is_open", c.c_bool),
        ("held", c.c_void_p),
    ]

assert c.sizeof(EpRefusal) == 40
assert c.sizeof(EpPartRefusal) == 24
assert c.sizeof(EpMessage) == 56
assert c.sizeof(EpAdded) == 128
assert c.sizeof(EpBuilt) == 16
assert c.sizeof(EpCapture) == 16
assert c.sizeof(EpPart) == 16
assert c.sizeof(EpCapturedPacket) == 64
assert c.sizeof(EpCaptureError) == 32
assert c.sizeof(EpCaptured) == 112
assert c.sizeof(EpCaptureEnding) == 40
assert c.sizeof(EpSegmentFlags) == 4
assert c.sizeof(EpConnectionState) == 8
assert c.sizeof(EpExtensions) == 24
assert c.sizeof(EpExtension) == 56
assert c.sizeof(EpGroupRecords) == 24
assert c.sizeof(EpGroupMessage) == 80
assert c.sizeof(EpGroupRecord) == 88
assert c.sizeof(EpIcmpFields) == 32
assert c.sizeof(EpNdp) == 64
assert c.sizeof(EpLink) == 32
assert c.sizeof(EpTag) == 48
assert c.sizeof(EpIpv4) == 72
assert c.sizeof(EpIpv6) == 104
assert c.sizeof(EpArp) == 88
assert c.sizeof(EpUdp) == 40
assert c.sizeof(EpTcp) == 64
assert c.sizeof(EpIcmp) == 40
assert c.sizeof(EpPacket) == 656
assert c.sizeof(EpLaxPacket) == 704
assert c.sizeof(EpNdpOption) == 96
assert c.sizeof(EpEndpoint) == 20
assert c.sizeof(EpFlowKey) == 52
assert c.sizeof(EpPacketKey) == 60
assert c.sizeof(EpPlan) == 248
assert c.sizeof(EpPlannedExtensions) == 104
assert c.sizeof(EpPool) == 16
assert c.sizeof(EpStream) == 16
assert c.sizeof(EpConflicts) == 16
assert c.sizeof(EpStreamAdded) == 40
assert c.sizeof(EpGap) == 16
assert c.sizeof(EpStreamProgress) == 56
assert c.sizeof(EpTcpBlock) == 8
assert c.sizeof(EpTcpOption) == 64
assert c.sizeof(EpFileHeader) == 24
assert c.sizeof(EpRecordHead) == 16

assert c.sizeof(NetlinesSession) == 16


def declare_etherparse(library: c.CDLL) -> None:
    """Gives the calls of libetherparse their types."""
    library.ep_build.argtypes = [c.POINTER(EpPlan), c.c_char_p, c.c_size_t, c.POINTER(c.c_uint8), c.c_size_t]
    library.ep_build.restype = EpBuilt
    library.ep_build_with_extensions.argtypes = [c.POINTER(EpPlan), c.POINTER(EpPlannedExtensions), c.c_char_p, c.c_size_t, c.c_char_p, c.c_size_t, c.POINTER(c.c_uint8), c.c_size_t]
    library.ep_build_with_extensions.restype = EpBuilt
    library.ep_build_arp.argtypes = [c.POINTER(EpPlan), c.POINTER(EpArp), c.c_char_p, c.c_size_t, c.POINTER(c.c_uint8), c.c_size_t]
    library.ep_build_arp.restype = EpBuilt
    library.ep_capture_new.argtypes = [c.POINTER(EpCapture), c.c_bool]
    library.ep_capture_new.restype = c.c_uint32
    library.ep_capture_next.argtypes = [c.POINTER(EpCapture), c.c_char_p, c.c_size_t]
    library.ep_capture_next.restype = EpCaptured
    library.ep_capture_end.argtypes = [c.POINTER(EpCapture), c.c_char_p, c.c_size_t]
    library.ep_capture_end.restype = EpCaptureEnding
    library.ep_capture_free.argtypes = [c.POINTER(EpCapture)]
    library.ep_capture_free.restype = None
    library.ep_capture_file_header.argtypes = [c.c_bool]
    library.ep_capture_file_header.restype = EpFileHeader
    library.ep_capture_record_head.argtypes = [c.c_uint32, c.c_uint32, c.c_uint32, c.c_uint32]
    library.ep_capture_record_head.restype = EpRecordHead
    library.ep_checksum.argtypes = [c.c_char_p, c.c_size_t]
    library.ep_checksum.restype = c.c_uint16
    library.ep_checksum_is_right.argtypes = [c.c_char_p, c.c_size_t]
    library.ep_checksum_is_right.restype = c.c_bool
    library.ep_tcp_options.argtypes = [c.POINTER(EpPacket)]
    library.ep_tcp_options.restype = EpPart
    library.ep_tcp_option_next.argtypes = [c.c_char_p, c.c_size_t, c.POINTER(EpPart)]
    library.ep_tcp_option_next.restype = EpTcpOption
    library.ep_ipv4_options.argtypes = [c.POINTER(EpPacket)]
    library.ep_ipv4_options.restype = EpPart
    library.ep_ip_extensions.argtypes = [c.POINTER(EpPacket)]
    library.ep_ip_extensions.restype = EpExtensions
    library.ep_extension_next.argtypes = [c.c_char_p, c.c_size_t, c.POINTER(EpExtensions)]
    library.ep_extension_next.restype = EpExtension
    library.ep_icmpv4_fields.argtypes = [c.c_char_p, c.c_size_t]
    library.ep_icmpv4_fields.restype = EpIcmpFields
    library.ep_icmpv6_fields.argtypes = [c.c_char_p, c.c_size_t]
    library.ep_icmpv6_fields.restype = EpIcmpFields
    library.ep_ndp_message.argtypes = [c.c_char_p, c.c_size_t]
    library.ep_ndp_message.restype = EpNdp
    library.ep_ndp_options.argtypes = [c.c_char_p, c.c_size_t]
    library.ep_ndp_options.restype = EpPart
    library.ep_ndp_option_next.argtypes = [c.c_char_p, c.c_size_t, c.POINTER(EpPart)]
    library.ep_ndp_option_next.restype = EpNdpOption
    library.ep_igmp_message.argtypes = [c.c_char_p, c.c_size_t]
    library.ep_igmp_message.restype = EpGroupMessage
    library.ep_mld_message.argtypes = [c.c_char_p, c.c_size_t]
    library.ep_mld_message.restype = EpGroupMessage
    library.ep_group_record_next.argtypes = [c.c_char_p, c.c_size_t, c.POINTER(EpGroupRecords)]
    library.ep_group_record_next.restype = EpGroupRecord
    library.ep_pool_new.argtypes = [c.POINTER(EpPool)]
    library.ep_pool_new.restype = c.c_uint32
    library.ep_pool_add.argtypes = [c.POINTER(EpPool), c.c_char_p, c.c_size_t, c.c_uint64, c.c_uint32, c.POINTER(c.c_uint8), c.c_size_t]
    library.ep_pool_add.restype = EpAdded
    library.ep_pool_add_linux_sll.argtypes = [c.POINTER(EpPool), c.c_char_p, c.c_size_t, c.c_uint64, c.c_uint32, c.POINTER(c.c_uint8), c.c_size_t]
    library.ep_pool_add_linux_sll.restype = EpAdded
    library.ep_pool_add_ip.argtypes = [c.POINTER(EpPool), c.c_char_p, c.c_size_t, c.c_uint64, c.c_uint32, c.POINTER(c.c_uint8), c.c_size_t]
    library.ep_pool_add_ip.restype = EpAdded
    library.ep_pool_take.argtypes = [c.POINTER(EpPool), c.POINTER(c.c_uint8), c.c_size_t]
    library.ep_pool_take.restype = EpAdded
    library.ep_pool_forget_before.argtypes = [c.POINTER(EpPool), c.c_uint64]
    library.ep_pool_forget_before.restype = c.c_uint32
    library.ep_pool_open.argtypes = [c.POINTER(EpPool)]
    library.ep_pool_open.restype = c.c_size_t
    library.ep_pool_free.argtypes = [c.POINTER(EpPool)]
    library.ep_pool_free.restype = None
    library.ep_slice_ethernet.argtypes = [c.c_char_p, c.c_size_t]
    library.ep_slice_ethernet.restype = EpPacket
    library.ep_slice_linux_sll.argtypes = [c.c_char_p, c.c_size_t]
    library.ep_slice_linux_sll.restype = EpPacket
    library.ep_slice_ip.argtypes = [c.c_char_p, c.c_size_t]
    library.ep_slice_ip.restype = EpPacket
    library.ep_slice_ethernet_lax.argtypes = [c.c_char_p, c.c_size_t]
    library.ep_slice_ethernet_lax.restype = EpLaxPacket
    library.ep_slice_linux_sll_lax.argtypes = [c.c_char_p, c.c_size_t]
    library.ep_slice_linux_sll_lax.restype = EpLaxPacket
    library.ep_slice_ip_lax.argtypes = [c.c_char_p, c.c_size_t]
    library.ep_slice_ip_lax.restype = EpLaxPacket
    library.ep_stream_new.argtypes = [c.POINTER(EpStream), c.c_size_t]
    library.ep_stream_new.restype = c.c_uint32
    library.ep_stream_add.argtypes = [c.POINTER(EpStream), c.c_uint32, c.POINTER(EpSegmentFlags), c.c_char_p, c.c_size_t]
    library.ep_stream_add.restype = EpStreamAdded
    library.ep_stream_read.argtypes = [c.POINTER(EpStream), c.POINTER(c.c_uint8), c.c_size_t]
    library.ep_stream_read.restype = c.c_size_t
    library.ep_stream_progress_of.argtypes = [c.POINTER(EpStream)]
    library.ep_stream_progress_of.restype = EpStreamProgress
    library.ep_stream_free.argtypes = [c.POINTER(EpStream)]
    library.ep_stream_free.restype = None
    library.ep_flow_key_ethernet.argtypes = [c.c_char_p, c.c_size_t, c.c_uint32]
    library.ep_flow_key_ethernet.restype = EpPacketKey
    library.ep_flow_key_linux_sll.argtypes = [c.c_char_p, c.c_size_t, c.c_uint32]
    library.ep_flow_key_linux_sll.restype = EpPacketKey
    library.ep_flow_key_ip.argtypes = [c.c_char_p, c.c_size_t, c.c_uint32]
    library.ep_flow_key_ip.restype = EpPacketKey
    library.ep_connection_state_after.argtypes = [c.POINTER(EpConnectionState), c.c_uint32, c.POINTER(EpSegmentFlags)]
    library.ep_connection_state_after.restype = EpConnectionState
    library.ep_verdict_ethernet.argtypes = [c.c_char_p, c.c_size_t]
    library.ep_verdict_ethernet.restype = c.c_uint32
    library.ep_verdict_linux_sll.argtypes = [c.c_char_p, c.c_size_t]
    library.ep_verdict_linux_sll.restype = c.c_uint32
    library.ep_verdict_ip.argtypes = [c.c_char_p, c.c_size_t]
    library.ep_verdict_ip.restype = c.c_uint32


def declare_netlines(library: c.CDLL) -> None:
    """Gives the calls of libnetlines their types."""
    library.netlines_answers.argtypes = [c.c_char_p, c.c_size_t, c.POINTER(c.c_uint8), c.c_size_t, c.POINTER(c.c_size_t)]
    library.netlines_answers.restype = c.c_uint32
    library.netlines_open.argtypes = [c.POINTER(NetlinesSession)]
    library.netlines_open.restype = c.c_uint32
    library.netlines_feed.argtypes = [c.POINTER(NetlinesSession), c.c_char_p, c.c_size_t, c.POINTER(c.c_uint8), c.c_size_t, c.POINTER(c.c_size_t)]
    library.netlines_feed.restype = c.c_uint32
    library.netlines_finish.argtypes = [c.POINTER(NetlinesSession), c.POINTER(c.c_uint8), c.c_size_t, c.POINTER(c.c_size_t)]
    library.netlines_finish.restype = c.c_uint32
    library.netlines_close.argtypes = [c.POINTER(NetlinesSession)]
    library.netlines_close.restype = None
