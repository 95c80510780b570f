//! Packets that are built.

use crate::planned_tcp::PlannedTcp;
use crate::raw::{self, EpBuilt, EpPlan};
use std::error::Error;
use std::fmt;
use std::net::{Ipv4Addr, Ipv6Addr};

/// What a packet is built of. Lengths, checksums, ether types and the numbers of headers follow from it.
#[derive(Clone, Debug, PartialEq, Eq)]
pub struct Plan {
    /// The link header.
    pub link: PlannedLink,
    /// The addresses.
    pub addresses: PlannedAddresses,
    /// How many hops it may take.
    pub hops: u8,
    /// The transport header.
    pub transport: PlannedTransport,
}

/// The link header of a plan.
#[derive(Clone, Debug, PartialEq, Eq)]
pub enum PlannedLink {
    /// None.
    None,
    /// Of Ethernet II, and up to two VLAN tags of these identifiers, the outer one first.
    Ethernet2 {
        /// The source address.
        source: [u8; 6],
        /// The destination address.
        destination: [u8; 6],
        /// The identifiers, at most two, each up to 4095.
        vlan_ids: Vec<u16>,
    },
    /// Of a Linux cooked capture of an Ethernet device.
    LinuxSll {
        /// 0 to us, 1 broadcast, 2 multicast, 3 to others, 4 from us.
        packet_type: u16,
        /// How many bytes of the address are the sender's.
        address_len: u16,
        /// The sender's address.
        address: [u8; 8],
    },
}

/// The addresses of a plan, which say its IP version.
#[derive(Clone, Copy, Debug, PartialEq, Eq)]
pub enum PlannedAddresses {
    /// Of IPv4.
    V4 {
        /// The source address.
        source: Ipv4Addr,
        /// The destination address.
        destination: Ipv4Addr,
    },
    /// Of IPv6.
    V6 {
        /// The source address.
        source: Ipv6Addr,
        /// The destination address.
        destination: Ipv6Addr,
    },
}

/// The transport header of a plan.
#[derive(Clone, Debug, PartialEq, Eq)]
pub enum PlannedTransport {
    /// None: the payload has this number.
    None {
        /// The IP protocol number of the payload.
        payload_number: u8,
    },
    /// Of UDP.
    Udp {
        /// The source port.
        source_port: u16,
        /// The destination port.
        destination_port: u16,
    },
    /// Of TCP.
    Tcp(PlannedTcp),
    /// Of an echo over IPv4.
    Icmpv4(PlannedEcho),
    /// Of an echo over IPv6.
    Icmpv6(PlannedEcho),
}

/// An echo request or its reply.
#[derive(Clone, Copy, Debug, Default, PartialEq, Eq)]
pub struct PlannedEcho {
    /// Whether it is the reply.
    pub is_reply: bool,
    /// The identifier.
    pub id: u16,
    /// The sequence number.
    pub sequence: u16,
}

/// What is refused of a packet to build: the first of these, but that [`PlanField::Payload`] comes before ICMPv6 over IPv4.
#[derive(Clone, Copy, Debug, PartialEq, Eq)]
#[non_exhaustive]
pub enum PlanField {
    /// No link header before an ARP packet.
    Link,
    /// A packet type of a Linux cooked capture above 4.
    PacketType,
    /// More than two VLAN tags.
    TagCount,
    /// An identifier of the outer tag above 4095.
    OuterVlanId,
    /// A priority of the outer tag above 7.
    OuterPriority,
    /// An identifier of the inner tag above 4095.
    InnerVlanId,
    /// A priority of the inner tag above 7.
    InnerPriority,
    /// A differentiated services code point above 63.
    Dscp,
    /// An explicit congestion notification above 3.
    Ecn,
    /// An offset of a fragment over IPv4 above 8191.
    FragmentOffset,
    /// More than 40 bytes of IPv4's options, or no whole words of 4.
    Ipv4OptionsLen,
    /// A flow label above 1048575.
    FlowLabel,
    /// Hop-by-hop options of a length that no header states, or over IPv4.
    HopByHopOptions,
    /// Destination options before a routing header of such a length, or over IPv4.
    DestinationOptions,
    /// A routing header of such a length, or over IPv4.
    Routing,
    /// A fragment header whose offset is above 8191, or over IPv4.
    FragmentHeader,
    /// An integrity check value of a length that no header states.
    Authentication,
    /// Destination options after a routing header of a length that no header states, or over IPv4.
    FinalDestinationOptions,
    /// ICMPv6 over IPv4, or a kind of ICMP message that this version doesn't have.
    Transport,
    /// More than 40 bytes of TCP's options.
    OptionsLen,
    /// Hardware addresses of ARP that differ in length, or have more than 255 bytes.
    HardwareAddresses,
    /// Protocol addresses of ARP that differ in length, or have more than 255 bytes.
    ProtocolAddresses,
    /// A payload that is longer than the length field of the IP header can say.
    Payload,
}

/// Why a packet isn't built.
#[derive(Clone, Copy, Debug, PartialEq, Eq)]
pub enum BuildError {
    /// There was no memory for it.
    OutOfMemory,
    /// A field of the plan is refused.
    Refused(PlanField),
}

impl fmt::Display for BuildError {
    fn fmt(&self, f: &mut fmt::Formatter<'_>) -> fmt::Result {
        match self {
            BuildError::OutOfMemory => f.write_str("out of memory"),
            BuildError::Refused(field) => write!(f, "no packet has such a field: {field}"),
        }
    }
}

impl Error for BuildError {}

impl fmt::Display for PlanField {
    fn fmt(&self, f: &mut fmt::Formatter<'_>) -> fmt::Result {
        f.write_str(match self {
            PlanField::Link => "link header",
            PlanField::PacketType => "packet type",
            PlanField::TagCount => "number of tags",
            PlanField::OuterVlanId => "identifier of the outer tag",
            PlanField::OuterPriority => "priority of the outer tag",
            PlanField::InnerVlanId => "identifier of the inner tag",
            PlanField::InnerPriority => "priority of the inner tag",
            PlanField::Dscp => "differentiated services code point",
            PlanField::Ecn => "explicit congestion notification",
            PlanField::FragmentOffset => "fragment offset",
            PlanField::Ipv4OptionsLen => "length of IPv4's options",
            PlanField::FlowLabel => "flow label",
            PlanField::HopByHopOptions => "hop-by-hop options",
            PlanField::DestinationOptions => "destination options",
            PlanField::Routing => "routing header",
            PlanField::FragmentHeader => "fragment header",
            PlanField::Authentication => "authentication",
            PlanField::FinalDestinationOptions => "final destination options",
            PlanField::Transport => "transport",
            PlanField::OptionsLen => "length of the options",
            PlanField::HardwareAddresses => "hardware addresses",
            PlanField::ProtocolAddresses => "protocol addresses",
            PlanField::Payload => "payload",
        })
    }
}

impl PlanField {
    // The other fields hold what a caller can't say wrongly.
    fn from_raw(number: u32) -> PlanField {
        match number {
            raw::FIELD_LINK => PlanField::Link,
            raw::FIELD_PACKET_TYPE => PlanField::PacketType,
            raw::FIELD_TAG_COUNT => PlanField::TagCount,
            raw::FIELD_OUTER_VLAN_ID => PlanField::OuterVlanId,
            raw::FIELD_OUTER_PRIORITY => PlanField::OuterPriority,
            raw::FIELD_INNER_VLAN_ID => PlanField::InnerVlanId,
            raw::FIELD_INNER_PRIORITY => PlanField::InnerPriority,
            raw::FIELD_DSCP => PlanField::Dscp,
            raw::FIELD_ECN => PlanField::Ecn,
            raw::FIELD_FRAGMENT_OFFSET => PlanField::FragmentOffset,
            raw::FIELD_IPV4_OPTIONS_LEN => PlanField::Ipv4OptionsLen,
            raw::FIELD_FLOW_LABEL => PlanField::FlowLabel,
            raw::FIELD_HOP_BY_HOP_OPTIONS => PlanField::HopByHopOptions,
            raw::FIELD_DESTINATION_OPTIONS => PlanField::DestinationOptions,
            raw::FIELD_ROUTING => PlanField::Routing,
            raw::FIELD_FRAGMENT_HEADER => PlanField::FragmentHeader,
            raw::FIELD_AUTHENTICATION => PlanField::Authentication,
            raw::FIELD_FINAL_DESTINATION_OPTIONS => PlanField::FinalDestinationOptions,
            raw::FIELD_TRANSPORT => PlanField::Transport,
            raw::FIELD_OPTIONS_LEN => PlanField::OptionsLen,
            raw::FIELD_HARDWARE_ADDRESSES => PlanField::HardwareAddresses,
            raw::FIELD_PROTOCOL_ADDRESSES => PlanField::ProtocolAddresses,
            _ => PlanField::Payload,
        }
    }
}

impl Plan {
    fn raw(&self) -> EpPlan {
        let mut raw = EpPlan { hops: self.hops, ..EpPlan::ZERO };
        match &self.link {
            PlannedLink::None => {}
            PlannedLink::Ethernet2 { source, destination, vlan_ids } => {
                raw = EpPlan { link: 1, source: *source, destination: *destination, ..raw };
                raw.tag_count = u32::try_from(vlan_ids.len()).unwrap_or(u32::MAX);
                raw.outer_vlan_id = vlan_ids.first().copied().unwrap_or(0);
                raw.inner_vlan_id = vlan_ids.get(1).copied().unwrap_or(0);
            }
            PlannedLink::LinuxSll { packet_type, address_len, address } => {
                raw = EpPlan { link: 2, packet_type: *packet_type, address_len: *address_len, address: *address, ..raw };
            }
        }
        match self.addresses {
            PlannedAddresses::V4 { source, destination } => {
                raw.ip_version = 4;
                (raw.ipv4_source, raw.ipv4_destination) = (source.octets(), destination.octets());
            }
            PlannedAddresses::V6 { source, destination } => {
                raw.ip_version = 6;
                (raw.ipv6_source, raw.ipv6_destination) = (source.octets(), destination.octets());
            }
        }
        match &self.transport {
            PlannedTransport::None { payload_number } => raw.payload_number = *payload_number,
            PlannedTransport::Udp { source_port, destination_port } => {
                raw.transport = 17;
                (raw.source_port, raw.destination_port) = (*source_port, *destination_port);
            }
            PlannedTransport::Tcp(tcp) => tcp.put(&mut raw),
            PlannedTransport::Icmpv4(echo) => echo.put(1, &mut raw),
            PlannedTransport::Icmpv6(echo) => echo.put(58, &mut raw),
        }
        raw
    }
}

impl PlannedEcho {
    fn put(self, transport: u32, raw: &mut EpPlan) {
        *raw =
            EpPlan { transport, is_reply: self.is_reply, echo_id: self.id, echo_sequence: self.sequence, ..*raw };
    }
}

/// Builds the packet of a plan with this payload.
pub fn build(plan: &Plan, payload: &[u8]) -> Result<Vec<u8>, BuildError> {
    let plan = plan.raw();
    // SAFETY: pointers and lengths are those of values that were written, and nothing overlaps.
    built_in(payload.len() + LONGEST_HEADERS, |output| unsafe {
        raw::ep_build(&plan, payload.as_ptr(), payload.len(), output.as_mut_ptr(), output.len())
    })
}

/// The longest headers without extension headers: link header, two tags, IPv4 with options, and TCP with options.
pub(crate) const LONGEST_HEADERS: usize = 160;

/// What a call builds in this room.
pub(crate) fn built_in(room: usize, call: impl FnOnce(&mut [u8]) -> EpBuilt) -> Result<Vec<u8>, BuildError> {
    let mut output = vec![0; room];
    let built = call(&mut output);
    match built.status {
        raw::DONE => {
            output.truncate(built.len);
            Ok(output)
        }
        raw::REFUSED => Err(BuildError::Refused(PlanField::from_raw(built.field))),
        _ => Err(BuildError::OutOfMemory),
    }
}
