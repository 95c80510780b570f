//! Packets that are built step by step, by the calls of the crate etherparse.

use crate::fields::{IcmpType, TcpOptionElement, TimestampMessage};
use crate::plan::{built_in, BuildError, LONGEST_HEADERS};
use crate::planned_tcp::PlannedTcp;
use crate::raw::{self, EpArp, EpPart, EpPlan, EpPlannedExtensions};
use std::marker::PhantomData;

/// What a packet begins with: a link header, or an IP header alone.
///
/// Each step adds a header, and the last one appends the packet with the ether types, numbers, lengths and checksums that
/// belong to it. Numbers out of their range are refused there, with the first field at fault.
///
/// ```no_run
/// use etherparse_proved::PacketBuilder;
///
/// let mut frame = Vec::new();
/// PacketBuilder::ethernet2([2, 0, 0, 0, 0, 1], [2, 0, 0, 0, 0, 2])
///     .single_vlan(5)
///     .ipv4([10, 0, 0, 1], [10, 0, 0, 2], 64)
///     .tcp(1, 2, 3, 1024)
///     .syn()
///     .write(&mut frame, b"hello")?;
/// # Ok::<(), etherparse_proved::BuildError>(())
/// ```
#[derive(Debug)]
pub struct PacketBuilder {}

/// A VLAN tag (IEEE 802.1Q, section 9.6).
#[derive(Clone, Copy, Debug, Default, PartialEq, Eq, Hash)]
pub struct SingleVlanHeader {
    /// The priority code point, 0 to 7.
    pub pcp: u8,
    /// Whether the frame may be dropped first.
    pub drop_eligible_indicator: bool,
    /// The identifier, 0 to 4095.
    pub vlan_id: u16,
}

/// Two VLAN tags.
#[derive(Clone, Copy, Debug, Default, PartialEq, Eq, Hash)]
pub struct DoubleVlanHeader {
    /// The first.
    pub outer: SingleVlanHeader,
    /// The second.
    pub inner: SingleVlanHeader,
}

/// One VLAN tag, or two.
#[derive(Clone, Copy, Debug, PartialEq, Eq, Hash)]
pub enum VlanHeader {
    /// One.
    Single(SingleVlanHeader),
    /// Two.
    Double(DoubleVlanHeader),
}

/// An IPv4 header (RFC 791, section 3.1) without what follows from the packet.
#[derive(Clone, Debug, PartialEq, Eq, Hash)]
pub struct Ipv4Header {
    /// The differentiated services code point, 0 to 63.
    pub dscp: u8,
    /// Explicit congestion notification, 0 to 3.
    pub ecn: u8,
    /// The identification, which the fragments of one datagram share.
    pub identification: u16,
    /// Whether the packet may not be fragmented.
    pub dont_fragment: bool,
    /// Whether other fragments follow.
    pub more_fragments: bool,
    /// The offset of the payload in the datagram, in units of 8 bytes, 0 to 8191.
    pub fragment_offset: u16,
    /// How many hops it may take.
    pub time_to_live: u8,
    /// The source address.
    pub source: [u8; 4],
    /// The destination address.
    pub destination: [u8; 4],
    /// The options: at most 40 bytes, a multiple of 4.
    pub options: Vec<u8>,
}

impl Default for Ipv4Header {
    /// With don't-fragment set, and 0 elsewhere.
    fn default() -> Ipv4Header {
        Ipv4Header {
            dscp: 0,
            ecn: 0,
            identification: 0,
            dont_fragment: true,
            more_fragments: false,
            fragment_offset: 0,
            time_to_live: 0,
            source: [0; 4],
            destination: [0; 4],
            options: Vec::new(),
        }
    }
}

/// An IPv6 header (RFC 8200, section 3) without what follows from the packet.
#[derive(Clone, Copy, Debug, Default, PartialEq, Eq, Hash)]
pub struct Ipv6Header {
    /// The traffic class.
    pub traffic_class: u8,
    /// The flow label, 0 to 1048575.
    pub flow_label: u32,
    /// How many hops it may take.
    pub hop_limit: u8,
    /// The source address.
    pub source: [u8; 16],
    /// The destination address.
    pub destination: [u8; 16],
}

/// An authentication header (RFC 4302) without the number of the next one.
#[derive(Clone, Debug, Default, PartialEq, Eq, Hash)]
pub struct IpAuthHeader {
    /// The security parameters index.
    pub spi: u32,
    /// The sequence number.
    pub sequence_number: u32,
    /// The integrity check value: at most 1016 bytes, a multiple of 4.
    pub raw_icv: Vec<u8>,
}

/// A fragment header (RFC 8200, section 4.5) without the number of the next one.
#[derive(Clone, Copy, Debug, Default, PartialEq, Eq, Hash)]
pub struct Ipv6FragmentHeader {
    /// The offset of the payload in the datagram, in units of 8 bytes, 0 to 8191.
    pub fragment_offset: u16,
    /// Whether other fragments follow.
    pub more_fragments: bool,
    /// The identification, which the fragments of one datagram share.
    pub identification: u32,
}

/// The extension headers of IPv4: authentication alone.
#[derive(Clone, Debug, Default, PartialEq, Eq, Hash)]
pub struct Ipv4Extensions {
    /// The authentication header.
    pub auth: Option<IpAuthHeader>,
}

/// A routing header, and destination options after it, as the bytes after the first two of a header.
#[derive(Clone, Debug, Default, PartialEq, Eq, Hash)]
pub struct Ipv6RoutingExtensions {
    /// The routing header.
    pub routing: Vec<u8>,
    /// The destination options.
    pub final_destination_options: Option<Vec<u8>>,
}

/// The extension headers of IPv6, which are written in the order of RFC 8200, section 4.1.
///
/// Options and routing are what follows the first two bytes of a header: 6 bytes and a multiple of 8, at most 2046.
#[derive(Clone, Debug, Default, PartialEq, Eq, Hash)]
pub struct Ipv6Extensions {
    /// Hop-by-hop options.
    pub hop_by_hop_options: Option<Vec<u8>>,
    /// Destination options before a routing header, or where there is none.
    pub destination_options: Option<Vec<u8>>,
    /// The routing header.
    pub routing: Option<Ipv6RoutingExtensions>,
    /// The fragment header.
    pub fragment: Option<Ipv6FragmentHeader>,
    /// The authentication header.
    pub auth: Option<IpAuthHeader>,
}

/// An IP header and its extension headers.
#[derive(Clone, Debug, PartialEq, Eq, Hash)]
pub enum IpHeaders {
    /// Of IPv4.
    Ipv4(Ipv4Header, Ipv4Extensions),
    /// Of IPv6.
    Ipv6(Ipv6Header, Ipv6Extensions),
}

/// An ARP packet (RFC 826). Both hardware addresses have one length, and both protocol addresses, at most 255.
#[derive(Clone, Debug, PartialEq, Eq, Hash)]
pub struct ArpPacket {
    /// The kind of hardware addresses: 1 Ethernet.
    pub hw_addr_type: u16,
    /// The kind of protocol addresses, an ether type.
    pub proto_addr_type: u16,
    /// 1 request, 2 reply.
    pub operation: u16,
    /// The sender's hardware address.
    pub sender_hw_addr: Vec<u8>,
    /// The sender's protocol address.
    pub sender_protocol_addr: Vec<u8>,
    /// The target's hardware address.
    pub target_hw_addr: Vec<u8>,
    /// The target's protocol address.
    pub target_protocol_addr: Vec<u8>,
}

/// The last step was an Ethernet II header.
#[derive(Debug)]
pub enum EthernetStep {}

/// The last step was a header before the network layer: tags, or that of a cooked capture.
#[derive(Debug)]
pub enum LinkStep {}

/// The last step was IP headers.
#[derive(Debug)]
pub enum IpStep {}

/// The last step was a TCP header.
#[derive(Debug)]
pub enum TcpStep {}

/// The last step was a header of UDP or ICMP.
#[derive(Debug)]
pub enum MessageStep {}

/// The last step was an ARP packet.
#[derive(Debug)]
pub enum ArpStep {}

/// A step after which the network layer follows.
pub trait BeforeNet {}
impl BeforeNet for EthernetStep {}
impl BeforeNet for LinkStep {}

/// A step after which the payload follows.
pub trait BeforePayload {}
impl BeforePayload for TcpStep {}
impl BeforePayload for MessageStep {}

/// A packet to which headers are added; `L` says which step was the last.
#[derive(Clone, Debug)]
pub struct PacketBuilderStep<L> {
    plan: EpPlan,
    extensions: EpPlannedExtensions,
    arp: EpArp,
    // What the parts of extension headers and ARP packets are in.
    bytes: Vec<u8>,
    // What ICMP has after its first 8 bytes, before the payload.
    before_payload: Vec<u8>,
    last: PhantomData<L>,
}

impl PacketBuilder {
    /// A packet in an Ethernet II frame between these addresses.
    #[must_use]
    pub fn ethernet2(source: [u8; 6], destination: [u8; 6]) -> PacketBuilderStep<EthernetStep> {
        step(EpPlan { link: 1, source, destination, ..EpPlan::ZERO })
    }

    /// A packet of a Linux cooked capture of an Ethernet device. The packet type is 0 to us, 1 broadcast, 2 multicast, 3 to
    /// others, 4 from us.
    #[must_use]
    pub fn linux_sll(
        packet_type: u16,
        sender_address_valid_length: u16,
        sender_address: [u8; 8],
    ) -> PacketBuilderStep<LinkStep> {
        let address_len = sender_address_valid_length;
        step(EpPlan { link: 2, packet_type, address_len, address: sender_address, ..EpPlan::ZERO })
    }

    /// An IPv4 packet with no link header.
    #[must_use]
    pub fn ipv4(source: [u8; 4], destination: [u8; 4], time_to_live: u8) -> PacketBuilderStep<IpStep> {
        nothing().ipv4(source, destination, time_to_live)
    }

    /// An IPv6 packet with no link header.
    #[must_use]
    pub fn ipv6(source: [u8; 16], destination: [u8; 16], hop_limit: u8) -> PacketBuilderStep<IpStep> {
        nothing().ipv6(source, destination, hop_limit)
    }

    /// A packet with no link header, with these IP headers.
    #[must_use]
    pub fn ip(ip_header: IpHeaders) -> PacketBuilderStep<IpStep> {
        nothing().ip(ip_header)
    }
}

fn step<L>(plan: EpPlan) -> PacketBuilderStep<L> {
    PacketBuilderStep {
        plan,
        extensions: EpPlannedExtensions::ZERO,
        arp: EpArp::ZERO,
        bytes: Vec::new(),
        before_payload: Vec::new(),
        last: PhantomData,
    }
}

fn nothing() -> PacketBuilderStep<LinkStep> {
    step(EpPlan::ZERO)
}

impl<L> PacketBuilderStep<L> {
    fn next<N>(self) -> PacketBuilderStep<N> {
        PacketBuilderStep {
            plan: self.plan,
            extensions: self.extensions,
            arp: self.arp,
            bytes: self.bytes,
            before_payload: self.before_payload,
            last: PhantomData,
        }
    }

    // A part of these bytes, put after those of the parts before it.
    fn part(&mut self, bytes: &[u8]) -> EpPart {
        let offset = self.bytes.len();
        self.bytes.extend_from_slice(bytes);
        EpPart { offset, len: bytes.len() }
    }

    // The part of an extension header. One of no bytes stands for none, so a header without is one that nothing holds whole.
    fn header_part(&mut self, payload: Option<&[u8]>) -> EpPart {
        match payload {
            None => EpPart::ZERO,
            Some([]) => EpPart { offset: 0, len: usize::MAX },
            Some(payload) => self.part(payload),
        }
    }

    fn put_auth(&mut self, auth: Option<&IpAuthHeader>) {
        if let Some(auth) = auth {
            self.extensions.has_authentication = true;
            self.extensions.spi = auth.spi;
            self.extensions.sequence_number = auth.sequence_number;
            self.extensions.integrity_check_value = self.part(&auth.raw_icv);
        }
    }

    fn put_ipv4(&mut self, header: &Ipv4Header) {
        self.plan = EpPlan {
            ip_version: 4,
            dscp: header.dscp,
            ecn: header.ecn,
            identification: header.identification,
            may_fragment: !header.dont_fragment,
            more_fragments: header.more_fragments,
            fragment_offset: header.fragment_offset,
            hops: header.time_to_live,
            ipv4_source: header.source,
            ipv4_destination: header.destination,
            ipv4_options_len: header.options.len(),
            ..self.plan
        };
        let len = header.options.len().min(self.plan.ipv4_options.len());
        self.plan.ipv4_options[..len].copy_from_slice(&header.options[..len]);
    }

    fn put_ipv6(&mut self, header: &Ipv6Header) {
        self.plan = EpPlan {
            ip_version: 6,
            traffic_class: header.traffic_class,
            flow_label: header.flow_label,
            hops: header.hop_limit,
            ipv6_source: header.source,
            ipv6_destination: header.destination,
            ..self.plan
        };
    }

    fn put_ipv6_extensions(&mut self, extensions: &Ipv6Extensions) {
        let routing = extensions.routing.as_ref();
        let last = routing.and_then(|headers| headers.final_destination_options.as_deref());
        self.extensions.hop_by_hop_options = self.header_part(extensions.hop_by_hop_options.as_deref());
        self.extensions.destination_options = self.header_part(extensions.destination_options.as_deref());
        self.extensions.routing = self.header_part(routing.map(|headers| &headers.routing[..]));
        self.extensions.final_destination_options = self.header_part(last);
        if let Some(fragment) = extensions.fragment {
            self.extensions.has_fragment_header = true;
            self.extensions.fragment_offset = fragment.fragment_offset;
            self.extensions.more_fragments = fragment.more_fragments;
            self.extensions.identification = fragment.identification;
        }
        self.put_auth(extensions.auth.as_ref());
    }

    // The packet with this payload, appended.
    fn write_payload(mut self, buffer: &mut Vec<u8>, payload: &[u8]) -> Result<(), BuildError> {
        self.before_payload.extend_from_slice(payload);
        let room = self.before_payload.len() + self.bytes.len() + LONGEST_HEADERS;
        // SAFETY: pointers and lengths are those of values that were written, and nothing overlaps; below, too.
        let packet = built_in(room, |output| unsafe {
            raw::ep_build_with_extensions(
                &self.plan,
                &self.extensions,
                self.bytes.as_ptr(),
                self.bytes.len(),
                self.before_payload.as_ptr(),
                self.before_payload.len(),
                output.as_mut_ptr(),
                output.len(),
            )
        })?;
        buffer.extend_from_slice(&packet);
        Ok(())
    }
}

impl PacketBuilderStep<EthernetStep> {
    /// With one VLAN tag of this identifier and priority 0.
    #[must_use]
    pub fn single_vlan(self, vlan_identifier: u16) -> PacketBuilderStep<LinkStep> {
        self.vlan(VlanHeader::Single(SingleVlanHeader { vlan_id: vlan_identifier, ..SingleVlanHeader::default() }))
    }

    /// With two VLAN tags of these identifiers and priority 0.
    #[must_use]
    pub fn double_vlan(self, outer_vlan_identifier: u16, inner_vlan_identifier: u16) -> PacketBuilderStep<LinkStep> {
        let [outer, inner] = [outer_vlan_identifier, inner_vlan_identifier]
            .map(|vlan_id| SingleVlanHeader { vlan_id, ..SingleVlanHeader::default() });
        self.vlan(VlanHeader::Double(DoubleVlanHeader { outer, inner }))
    }

    /// With these tags.
    #[must_use]
    pub fn vlan(mut self, vlan: VlanHeader) -> PacketBuilderStep<LinkStep> {
        let (tag_count, outer, inner) = match vlan {
            VlanHeader::Single(tag) => (1, tag, SingleVlanHeader::default()),
            VlanHeader::Double(tags) => (2, tags.outer, tags.inner),
        };
        self.plan = EpPlan {
            tag_count,
            outer_vlan_id: outer.vlan_id,
            outer_priority: outer.pcp,
            outer_drop_eligible: outer.drop_eligible_indicator,
            inner_vlan_id: inner.vlan_id,
            inner_priority: inner.pcp,
            inner_drop_eligible: inner.drop_eligible_indicator,
            ..self.plan
        };
        self.next()
    }
}

impl<L: BeforeNet> PacketBuilderStep<L> {
    /// With an IPv4 header between these addresses, for so many hops, with don't-fragment set, and 0 elsewhere.
    #[must_use]
    pub fn ipv4(self, source: [u8; 4], destination: [u8; 4], time_to_live: u8) -> PacketBuilderStep<IpStep> {
        let header = Ipv4Header { source, destination, time_to_live, ..Ipv4Header::default() };
        self.ip(IpHeaders::Ipv4(header, Ipv4Extensions::default()))
    }

    /// With an IPv6 header between these addresses, for so many hops, and 0 elsewhere.
    #[must_use]
    pub fn ipv6(self, source: [u8; 16], destination: [u8; 16], hop_limit: u8) -> PacketBuilderStep<IpStep> {
        let header = Ipv6Header { source, destination, hop_limit, ..Ipv6Header::default() };
        self.ip(IpHeaders::Ipv6(header, Ipv6Extensions::default()))
    }

    /// With these IP headers. Their lengths and numbers, and of IPv4 the checksum, are set when the packet is written.
    #[must_use]
    pub fn ip(mut self, ip_header: IpHeaders) -> PacketBuilderStep<IpStep> {
        match &ip_header {
            IpHeaders::Ipv4(header, extensions) => {
                self.put_ipv4(header);
                self.put_auth(extensions.auth.as_ref());
            }
            IpHeaders::Ipv6(header, extensions) => {
                self.put_ipv6(header);
                self.put_ipv6_extensions(extensions);
            }
        }
        self.next()
    }

    /// With this ARP packet, which no payload follows.
    #[must_use]
    pub fn arp(mut self, arp_packet: ArpPacket) -> PacketBuilderStep<ArpStep> {
        self.arp = EpArp {
            hardware_type: arp_packet.hw_addr_type,
            protocol_type: arp_packet.proto_addr_type,
            operation: arp_packet.operation,
            sender_hardware: self.part(&arp_packet.sender_hw_addr),
            sender_protocol: self.part(&arp_packet.sender_protocol_addr),
            target_hardware: self.part(&arp_packet.target_hw_addr),
            target_protocol: self.part(&arp_packet.target_protocol_addr),
            ..EpArp::ZERO
        };
        self.next()
    }
}

impl PacketBuilderStep<IpStep> {
    /// With a UDP header between these ports.
    #[must_use]
    pub fn udp(mut self, source_port: u16, destination_port: u16) -> PacketBuilderStep<MessageStep> {
        self.plan = EpPlan { transport: 17, source_port, destination_port, ..self.plan };
        self.next()
    }

    /// With a TCP header with these numbers, no options, no flags, and 0 elsewhere.
    #[must_use]
    pub fn tcp(
        self,
        source_port: u16,
        destination_port: u16,
        sequence_number: u32,
        window_size: u16,
    ) -> PacketBuilderStep<TcpStep> {
        self.tcp_header(&PlannedTcp {
            source_port,
            destination_port,
            sequence_number,
            window_size,
            ..PlannedTcp::default()
        })
    }

    /// With this TCP header.
    #[must_use]
    pub fn tcp_header(mut self, tcp_header: &PlannedTcp) -> PacketBuilderStep<TcpStep> {
        tcp_header.put(&mut self.plan);
        self.next()
    }

    /// With an ICMP message of this kind over IPv4. One that ICMPv4 doesn't have is refused when the packet is written.
    #[must_use]
    pub fn icmpv4(mut self, icmp_type: IcmpType) -> PacketBuilderStep<MessageStep> {
        if let IcmpType::TimestampRequest(times) | IcmpType::TimestampReply(times) = icmp_type {
            self.before_payload = bytes_of_times(&times);
        }
        self.icmp(1, icmpv4_fields(icmp_type))
    }

    /// With an ICMP message over IPv4 of this type and code, and with these bytes after its checksum.
    #[must_use]
    pub fn icmpv4_raw(self, type_u8: u8, code_u8: u8, bytes5to8: [u8; 4]) -> PacketBuilderStep<MessageStep> {
        self.icmp(1, Some((type_u8, code_u8, bytes5to8)))
    }

    /// With an echo request over IPv4.
    #[must_use]
    pub fn icmpv4_echo_request(self, id: u16, seq: u16) -> PacketBuilderStep<MessageStep> {
        self.icmp(1, Some((8, 0, two(id, seq))))
    }

    /// With the reply to an echo request over IPv4.
    #[must_use]
    pub fn icmpv4_echo_reply(self, id: u16, seq: u16) -> PacketBuilderStep<MessageStep> {
        self.icmp(1, Some((0, 0, two(id, seq))))
    }

    /// With an ICMP message of this kind over IPv6. One that ICMPv6 doesn't have is refused when the packet is written.
    #[must_use]
    pub fn icmpv6(self, icmp_type: IcmpType) -> PacketBuilderStep<MessageStep> {
        self.icmp(58, icmpv6_fields(icmp_type))
    }

    /// With an ICMP message over IPv6 of this type and code, and with these bytes after its checksum.
    #[must_use]
    pub fn icmpv6_raw(self, type_u8: u8, code_u8: u8, bytes5to8: [u8; 4]) -> PacketBuilderStep<MessageStep> {
        self.icmp(58, Some((type_u8, code_u8, bytes5to8)))
    }

    /// With an echo request over IPv6.
    #[must_use]
    pub fn icmpv6_echo_request(self, id: u16, seq: u16) -> PacketBuilderStep<MessageStep> {
        self.icmp(58, Some((128, 0, two(id, seq))))
    }

    /// With the reply to an echo request over IPv6.
    #[must_use]
    pub fn icmpv6_echo_reply(self, id: u16, seq: u16) -> PacketBuilderStep<MessageStep> {
        self.icmp(58, Some((129, 0, two(id, seq))))
    }

    // A kind that the version doesn't have is no transport header.
    fn icmp(mut self, transport: u32, fields: Option<(u8, u8, [u8; 4])>) -> PacketBuilderStep<MessageStep> {
        let (icmp_type, icmp_code, icmp_bytes) = fields.unwrap_or_default();
        let transport = if fields.is_some() { transport } else { u32::MAX };
        self.plan = EpPlan { transport, icmp_is_raw: true, icmp_type, icmp_code, icmp_bytes, ..self.plan };
        self.next()
    }

    /// Appends the packet, whose IP headers name this number last and carry this payload. On an error the buffer stays as it
    /// was.
    pub fn write(
        mut self,
        buffer: &mut Vec<u8>,
        last_next_header_ip_number: u8,
        payload: &[u8],
    ) -> Result<(), BuildError> {
        self.plan.payload_number = last_next_header_ip_number;
        self.write_payload(buffer, payload)
    }
}

macro_rules! flags {
    ($($flag:ident)*) => {$(
        #[doc = concat!("With the flag `", stringify!($flag), "`.")]
        #[must_use]
        pub fn $flag(mut self) -> PacketBuilderStep<TcpStep> {
            self.plan.$flag = true;
            self
        }
    )*};
}

impl PacketBuilderStep<TcpStep> {
    flags!(ns fin syn rst psh ece cwr);

    /// With the flag `ack` and this acknowledgment number.
    #[must_use]
    pub fn ack(mut self, acknowledgment_number: u32) -> PacketBuilderStep<TcpStep> {
        self.plan = EpPlan { ack: true, acknowledgment_number, ..self.plan };
        self
    }

    /// With the flag `urg` and this urgent pointer.
    #[must_use]
    pub fn urg(mut self, urgent_pointer: u16) -> PacketBuilderStep<TcpStep> {
        self.plan = EpPlan { urg: true, urgent_pointer, ..self.plan };
        self
    }

    /// With these elements as the options, filled up with 0 to whole words. More than 40 bytes are refused when the packet is
    /// written.
    #[must_use]
    pub fn options(self, options: &[TcpOptionElement]) -> PacketBuilderStep<TcpStep> {
        let mut bytes = Vec::new();
        for option in options {
            put_option(option, &mut bytes);
        }
        self.options_raw(&bytes)
    }

    /// With these bytes as the options, filled up with 0 to whole words. More than 40 are refused when the packet is written.
    #[must_use]
    pub fn options_raw(mut self, options: &[u8]) -> PacketBuilderStep<TcpStep> {
        let len = options.len().min(self.plan.options.len());
        self.plan.options = [0; 40];
        self.plan.options[..len].copy_from_slice(&options[..len]);
        self.plan.options_len = options.len();
        self
    }
}

impl<L: BeforePayload> PacketBuilderStep<L> {
    /// Appends the packet with this payload. On an error the buffer stays as it was.
    pub fn write(self, buffer: &mut Vec<u8>, payload: &[u8]) -> Result<(), BuildError> {
        self.write_payload(buffer, payload)
    }
}

impl PacketBuilderStep<ArpStep> {
    /// Appends the packet. On an error the buffer stays as it was.
    pub fn write(self, buffer: &mut Vec<u8>) -> Result<(), BuildError> {
        let packet = built_in(self.bytes.len() + LONGEST_HEADERS, |output| unsafe {
            raw::ep_build_arp(
                &self.plan,
                &self.arp,
                self.bytes.as_ptr(),
                self.bytes.len(),
                output.as_mut_ptr(),
                output.len(),
            )
        })?;
        buffer.extend_from_slice(&packet);
        Ok(())
    }
}

// Two numbers, high byte first.
fn two(first: u16, second: u16) -> [u8; 4] {
    let ([a, b], [c, d]) = (first.to_be_bytes(), second.to_be_bytes());
    [a, b, c, d]
}

fn bytes_of_times(times: &TimestampMessage) -> Vec<u8> {
    let numbers = [times.originate_timestamp, times.receive_timestamp, times.transmit_timestamp];
    numbers.iter().flat_map(|number| number.to_be_bytes()).collect()
}

// Type, code and bytes 4 to 7 of an ICMPv4 message (RFC 792; RFC 1191), if it has this kind.
fn icmpv4_fields(icmp_type: IcmpType) -> Option<(u8, u8, [u8; 4])> {
    Some(match icmp_type {
        IcmpType::Unknown { type_u8, code_u8, bytes5to8 } => (type_u8, code_u8, bytes5to8),
        IcmpType::EchoRequest(echo) => (8, 0, two(echo.id, echo.seq)),
        IcmpType::EchoReply(echo) => (0, 0, two(echo.id, echo.seq)),
        IcmpType::DestinationUnreachable { code_u8, next_hop_mtu } => (3, code_u8, two(0, next_hop_mtu)),
        IcmpType::Redirect { code_u8, gateway_internet_address } => (5, code_u8, gateway_internet_address.octets()),
        IcmpType::TimeExceeded { code_u8 } => (11, code_u8, [0; 4]),
        IcmpType::ParameterProblem { code_u8, pointer } => {
            (12, code_u8, [u8::try_from(pointer).ok()?, 0, 0, 0])
        }
        IcmpType::TimestampRequest(times) => (13, 0, two(times.id, times.seq)),
        IcmpType::TimestampReply(times) => (14, 0, two(times.id, times.seq)),
        IcmpType::PacketTooBig { .. } => return None,
    })
}

// Those of an ICMPv6 message (RFC 4443).
fn icmpv6_fields(icmp_type: IcmpType) -> Option<(u8, u8, [u8; 4])> {
    Some(match icmp_type {
        IcmpType::Unknown { type_u8, code_u8, bytes5to8 } => (type_u8, code_u8, bytes5to8),
        IcmpType::EchoRequest(echo) => (128, 0, two(echo.id, echo.seq)),
        IcmpType::EchoReply(echo) => (129, 0, two(echo.id, echo.seq)),
        IcmpType::DestinationUnreachable { code_u8, next_hop_mtu: 0 } => (1, code_u8, [0; 4]),
        IcmpType::PacketTooBig { mtu } => (2, 0, mtu.to_be_bytes()),
        IcmpType::TimeExceeded { code_u8 } => (3, code_u8, [0; 4]),
        IcmpType::ParameterProblem { code_u8, pointer } => (4, code_u8, pointer.to_be_bytes()),
        _ => return None,
    })
}

// An option with its kind and length (RFC 9293, section 3.2; RFC 7323; RFC 2018).
fn put_option(option: &TcpOptionElement, bytes: &mut Vec<u8>) {
    match option {
        TcpOptionElement::Noop => bytes.push(1),
        TcpOptionElement::MaximumSegmentSize(size) => {
            bytes.extend_from_slice(&[2, 4]);
            bytes.extend_from_slice(&size.to_be_bytes());
        }
        TcpOptionElement::WindowScale(shift) => bytes.extend_from_slice(&[3, 3, *shift]),
        TcpOptionElement::SelectiveAcknowledgementPermitted => bytes.extend_from_slice(&[4, 2]),
        TcpOptionElement::SelectiveAcknowledgement(first, rest) => {
            let blocks: Vec<(u32, u32)> =
                std::iter::once(*first).chain(rest.iter().filter_map(|block| *block)).collect();
            // At most four blocks: 34 bytes.
            bytes.extend_from_slice(&[5, 2 + 8 * blocks.len() as u8]);
            for (left, right) in blocks {
                bytes.extend_from_slice(&left.to_be_bytes());
                bytes.extend_from_slice(&right.to_be_bytes());
            }
        }
        TcpOptionElement::Timestamp(value, reply) => {
            bytes.extend_from_slice(&[8, 10]);
            bytes.extend_from_slice(&value.to_be_bytes());
            bytes.extend_from_slice(&reply.to_be_bytes());
        }
    }
}
