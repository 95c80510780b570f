//! Writes a line of what is read of each frame: `E` and the hex digits of an Ethernet II frame, or `L` and those of a packet of a
//! Linux cooked capture, each on a line of standard input. `tools/compare_fields/exports` compares the lines.

use etherparse_proved::{
    slice_ethernet, slice_linux_sll, Addresses, Extension, GroupRecord, GroupRecordError, GroupRecords, IcmpEchoHeader, IcmpType,
    IgmpMessage, Link, MldMessage, NdpMessage, NdpOption, NdpOptionError, Net, Packet, RawExtension, TcpOptionElement,
    TcpOptionReadError, TimestampMessage, Transport,
};
use std::fmt::Write;
use std::io::{self, BufRead};
use std::net::{Ipv4Addr, Ipv6Addr};

fn bytes(digits: &str) -> Vec<u8> {
    (0..digits.len() / 2).map(|i| u8::from_str_radix(&digits[2 * i..2 * i + 2], 16).unwrap()).collect()
}

fn hex(bytes: &[u8]) -> String {
    let mut text = String::from("x");
    for byte in bytes {
        write!(text, "{byte:02x}").unwrap();
    }
    text
}

/// An address of either version.
trait Address {
    fn digits(&self) -> String;
}

impl Address for Ipv4Addr {
    fn digits(&self) -> String {
        hex(&self.octets())
    }
}

impl Address for Ipv6Addr {
    fn digits(&self) -> String {
        hex(&self.octets())
    }
}

fn listed<A: Address>(addresses: impl Iterator<Item = A>) -> String {
    addresses.map(|it| it.digits() + ",").collect()
}

/// The values with a space before each; a flag is 0 or 1.
macro_rules! add {
    ($text:expr, $name:expr $(, $value:expr)*) => {{
        write!($text, "; {}", $name).unwrap();
        $( write!($text, " {}", $value).unwrap(); )*
    }};
}

fn link(packet: &Packet<'_>, text: &mut String) {
    match packet.link() {
        Some(Link::Ethernet2(link)) => add!(text, "eth", hex(&link.source), hex(&link.destination), link.ether_type()),
        Some(Link::LinuxSll(link)) => add!(
            text,
            "sll",
            link.packet_type,
            link.arp_hrd_type(),
            link.sender_address_valid_length(),
            hex(&link.sender_address()),
            link.protocol_type()
        ),
        None => add!(text, "no link"),
    }
    for tag in packet.tags() {
        if tag.kind == 1 {
            add!(text, "vlan", tag.pcp(), u8::from(tag.drop_eligible_indicator()), tag.vlan_id, tag.ether_type);
            continue;
        }
        let bits = [tag.endstation_id(), tag.scb(), tag.encrypted, tag.userdata_changed(), tag.sci().is_some()].map(u8::from);
        add!(text, "macsec", hex(&bits), tag.an(), tag.short_len, tag.packet_nr(), tag.sci().unwrap_or(0), tag.ether_type);
    }
}

fn net(packet: &Packet<'_>, text: &mut String) {
    match packet.net() {
        Some(Net::Ipv4(ip)) => {
            let bits = [ip.dont_fragment, ip.more_fragments, ip.is_part].map(u8::from);
            let numbers = [ip.dscp, ip.ecn, ip.time_to_live, ip.protocol, ip.payload_number];
            let words = [ip.total_len, ip.identification, ip.fragment_offset, ip.header_checksum];
            add!(text, "ipv4", hex(&bits), hex(&numbers), words.map(|it| it.to_string()).join(","), ip.source_addr().digits());
            add!(text, "to", ip.destination_addr().digits(), hex(packet.ipv4_options()));
        }
        Some(Net::Ipv6(ip)) => {
            let numbers = [ip.traffic_class, ip.next_header, ip.hop_limit, ip.payload_number, u8::from(ip.is_part)];
            let addresses = listed([ip.source_addr(), ip.destination_addr()].into_iter());
            add!(text, "ipv6", hex(&numbers), ip.flow_label, ip.payload_length, addresses);
        }
        Some(Net::Arp(arp)) => {
            let parts = [arp.sender_hw_addr(), arp.sender_protocol_addr(), arp.target_hw_addr(), arp.target_protocol_addr()];
            let parts = parts.map(|it| hex(packet.bytes_of(it)));
            add!(text, "arp", arp.hw_addr_type(), arp.proto_addr_type(), arp.operation, parts.join(" "));
        }
        None => {}
    }
    for header in packet.extensions() {
        let mut raw = |name: &str, it: RawExtension<'_>| add!(text, name, it.next_header, hex(it.payload));
        match header {
            Extension::HopByHop(it) => raw("hop-by-hop", it),
            Extension::Routing(it) => raw("routing", it),
            Extension::DestinationOptions(it) => raw("destination", it),
            Extension::Fragment(it) => {
                add!(text, "fragment", it.next_header, it.fragment_offset, u8::from(it.more_fragments), it.identification)
            }
            Extension::Authentication(it) => add!(text, "auth", it.next_header, it.spi, it.sequence_number, hex(it.raw_icv)),
        }
    }
}

fn icmp(packet: &Packet<'_>, text: &mut String) {
    let mut echo = |name: &str, it: IcmpEchoHeader| add!(text, name, it.id, it.seq);
    match packet.icmp_type() {
        Some(IcmpType::EchoRequest(it)) => return echo("echo request", it),
        Some(IcmpType::EchoReply(it)) => return echo("echo reply", it),
        _ => {}
    }
    let mut times = |name: &str, it: TimestampMessage| {
        add!(text, name, it.id, it.seq, it.originate_timestamp, it.receive_timestamp, it.transmit_timestamp)
    };
    match packet.icmp_type() {
        Some(IcmpType::TimestampRequest(it)) => times("timestamp request", it),
        Some(IcmpType::TimestampReply(it)) => times("timestamp reply", it),
        Some(IcmpType::Unknown { type_u8, code_u8, bytes5to8 }) => add!(text, "unknown", type_u8, code_u8, hex(&bytes5to8)),
        Some(IcmpType::DestinationUnreachable { code_u8, next_hop_mtu }) => add!(text, "unreachable", code_u8, next_hop_mtu),
        Some(IcmpType::Redirect { code_u8, gateway_internet_address }) => {
            add!(text, "redirect", code_u8, gateway_internet_address.digits())
        }
        Some(IcmpType::TimeExceeded { code_u8 }) => add!(text, "time exceeded", code_u8),
        Some(IcmpType::ParameterProblem { code_u8, pointer }) => add!(text, "parameter problem", code_u8, pointer),
        Some(IcmpType::PacketTooBig { mtu }) => add!(text, "too big", mtu),
        _ => {}
    }
}

fn transport(packet: &Packet<'_>, text: &mut String) {
    match packet.transport() {
        Some(Transport::Udp(it)) => add!(text, "udp", it.source_port, it.destination_port, it.length(), it.checksum),
        Some(Transport::Tcp(it)) => {
            let bits = [it.ns, it.fin, it.syn, it.rst, it.psh, it.ack, it.urg, it.ece, it.cwr].map(u8::from);
            let words = [it.source_port, it.destination_port, it.window_size, it.checksum, it.urgent_pointer];
            let words = words.map(|it| it.to_string()).join(",");
            add!(text, "tcp", hex(&bits), words, it.sequence_number, it.acknowledgment_number);
        }
        Some(Transport::Icmpv4(it)) => add!(text, "icmpv4", it.icmp_type, it.code, it.checksum, hex(&it.rest)),
        Some(Transport::Icmpv6(it)) => add!(text, "icmpv6", it.icmp_type, it.code, it.checksum, hex(&it.rest)),
        None => {}
    }
    icmp(packet, text);
    for option in packet.tcp_options() {
        match option {
            Ok(TcpOptionElement::Noop) => add!(text, "noop"),
            Ok(TcpOptionElement::MaximumSegmentSize(it)) => add!(text, "mss", it),
            Ok(TcpOptionElement::WindowScale(it)) => add!(text, "scale", it),
            Ok(TcpOptionElement::SelectiveAcknowledgementPermitted) => add!(text, "sack permitted"),
            Ok(TcpOptionElement::SelectiveAcknowledgement(first, others)) => {
                add!(text, "sack");
                for (left, right) in std::iter::once(first).chain(others.into_iter().flatten()) {
                    write!(text, " {left}-{right}").unwrap();
                }
            }
            Ok(TcpOptionElement::Timestamp(value, reply)) => add!(text, "timestamps", value, reply),
            Err(TcpOptionReadError::UnexpectedEndOfSlice { option_id, expected_len, actual_len }) => {
                add!(text, "too few bytes", option_id, expected_len, actual_len)
            }
            Err(TcpOptionReadError::UnexpectedSize { option_id, size }) => add!(text, "wrong length", option_id, size),
            Err(TcpOptionReadError::UnknownId(option_id)) => add!(text, "unknown kind", option_id),
        }
    }
}

fn neighbors(packet: &Packet<'_>, text: &mut String) {
    match packet.ndp() {
        Some(NdpMessage::RouterSolicitation) => add!(text, "router solicitation"),
        Some(NdpMessage::RouterAdvertisement { cur_hop_limit, managed, other, router_lifetime, reachable_time, retrans_timer }) => {
            let bits = hex(&[managed, other].map(u8::from));
            add!(text, "router advertisement", cur_hop_limit, bits, router_lifetime, reachable_time, retrans_timer)
        }
        Some(NdpMessage::NeighborSolicitation { target }) => add!(text, "neighbor solicitation", target.digits()),
        Some(NdpMessage::NeighborAdvertisement { router, solicited, overrides, target }) => {
            add!(text, "neighbor advertisement", hex(&[router, solicited, overrides].map(u8::from)), target.digits())
        }
        Some(NdpMessage::Redirect { target, destination }) => {
            add!(text, "better hop", target.digits(), destination.digits())
        }
        None => {}
    }
    for option in packet.ndp_options() {
        match option {
            Ok(NdpOption::SourceLinkLayerAddress(it)) => add!(text, "source address", hex(it)),
            Ok(NdpOption::TargetLinkLayerAddress(it)) => add!(text, "target address", hex(it)),
            Ok(NdpOption::PrefixInformation(it)) => {
                let bits = hex(&[it.on_link, it.autonomous].map(u8::from));
                add!(text, "prefix", it.prefix_length, bits, it.valid_lifetime, it.preferred_lifetime, it.prefix.digits())
            }
            Ok(NdpOption::RedirectedHeader(it)) => add!(text, "redirected", hex(it)),
            Ok(NdpOption::Mtu(it)) => add!(text, "mtu", it),
            Ok(NdpOption::RecursiveDnsServer { lifetime, addresses }) => add!(text, "servers", lifetime, listed(addresses)),
            Ok(NdpOption::DnsSearchList { lifetime, names }) => add!(text, "domains", lifetime, hex(names)),
            Ok(NdpOption::Unknown { kind, bytes }) => add!(text, "option", kind, hex(bytes)),
            Err(NdpOptionError::UnexpectedEnd { offset, needed_len, actual_len }) => {
                add!(text, "too few bytes", offset, needed_len, actual_len)
            }
            Err(NdpOptionError::ZeroLength { offset }) => add!(text, "length 0", offset),
        }
    }
}

fn records<'a, A: Address>(records: GroupRecords<'a, A>, text: &mut String)
where
    GroupRecords<'a, A>: Iterator<Item = Result<GroupRecord<'a, A>, GroupRecordError>>,
    Addresses<'a, A>: Iterator<Item = A>,
{
    add!(text, "records", records.count_left());
    for record in records {
        match record {
            Ok(it) => add!(text, "record", it.kind, it.group.digits(), listed(it.sources), hex(it.auxiliary_data)),
            Err(it) => add!(text, "too few bytes", it.offset, it.needed_len, it.actual_len),
        }
    }
}

fn groups(packet: &Packet<'_>, text: &mut String) {
    match packet.igmp() {
        Some(Ok(IgmpMessage::Query { max_response_time, group })) => add!(text, "query", max_response_time, group.digits()),
        Some(Ok(IgmpMessage::QueryV3 { max_response_code, group, sources })) => {
            add!(text, "query of sources", max_response_code, group.digits(), listed(sources))
        }
        Some(Ok(IgmpMessage::ReportV1 { group })) => add!(text, "report 1", group.digits()),
        Some(Ok(IgmpMessage::ReportV2 { group })) => add!(text, "report 2", group.digits()),
        Some(Ok(IgmpMessage::Leave { group })) => add!(text, "leave", group.digits()),
        Some(Ok(IgmpMessage::ReportV3(it))) => records(it, text),
        Some(Err(it)) => add!(text, "short message", it.needed_len, it.actual_len),
        None => {}
    }
    match packet.mld() {
        Some(Ok(MldMessage::Query { max_response_delay, group })) => add!(text, "query", max_response_delay, group.digits()),
        Some(Ok(MldMessage::QueryV2 { max_response_code, group, sources })) => {
            add!(text, "query of sources", max_response_code, group.digits(), listed(sources))
        }
        Some(Ok(MldMessage::Report { group })) => add!(text, "report 1", group.digits()),
        Some(Ok(MldMessage::Done { group })) => add!(text, "leave", group.digits()),
        Some(Ok(MldMessage::ReportV2(it))) => records(it, text),
        Some(Err(it)) => add!(text, "short message", it.needed_len, it.actual_len),
        None => {}
    }
}

fn line(kind: &str, bytes: &[u8]) -> String {
    let packet = match if kind == "E" { slice_ethernet(bytes) } else { slice_linux_sll(bytes) } {
        Ok(packet) => packet,
        Err(refusal) => return format!("refused: {refusal}"),
    };
    let mut text = String::new();
    link(&packet, &mut text);
    net(&packet, &mut text);
    transport(&packet, &mut text);
    neighbors(&packet, &mut text);
    groups(&packet, &mut text);
    add!(text, "payload", hex(packet.payload()));
    text.split_off(2)
}

fn main() {
    for text in io::stdin().lock().lines() {
        let text = text.unwrap();
        let (kind, digits) = text.split_at(1);
        println!("{}", line(kind, &bytes(digits)));
    }
}
