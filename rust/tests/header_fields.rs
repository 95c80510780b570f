//! What the wrapper reads beyond the fields of a packet: c/tests/header_fields.txt says how its lines read.

use etherparse_proved::{
    slice_ethernet, slice_ethernet_lax, Addresses, Extension, GroupRecord, GroupRecordError, GroupRecords, IcmpType, IgmpMessage,
    MldMessage, MulticastError, NdpMessage, NdpOption, NdpOptionError, Packet, RawExtension, TcpOptionElement, TcpOptionReadError,
};
use std::fs;
use std::net::{IpAddr, Ipv4Addr, Ipv6Addr};

const TABLE: &str = concat!(env!("CARGO_MANIFEST_DIR"), "/../c/tests/header_fields.txt");

fn bytes(hex: &str) -> Vec<u8> {
    (0..hex.len() / 2).map(|i| u8::from_str_radix(&hex[2 * i..2 * i + 2], 16).unwrap()).collect()
}

fn hex(bytes: &[u8]) -> String {
    bytes.iter().map(|byte| format!("{byte:02x}")).collect()
}

/// A line of these fields, without those that are 0.
fn line(what: &str, fields: &[(&str, usize)]) -> String {
    let others = fields.iter().filter(|field| field.1 != 0);
    others.fold(what.to_string(), |line, (name, value)| format!("{line} {name}={value}"))
}

fn option_line(option: Result<TcpOptionElement, TcpOptionReadError>) -> String {
    use TcpOptionElement::*;
    let what = "tcp_option";
    match option {
        Ok(Noop) => line(what, &[("kind", 1)]),
        Ok(MaximumSegmentSize(size)) => line(what, &[("maximum_segment_size", size.into()), ("kind", 2)]),
        Ok(WindowScale(shift)) => line(what, &[("kind", 3), ("window_scale", shift.into())]),
        Ok(SelectiveAcknowledgementPermitted) => line(what, &[("kind", 4)]),
        Ok(SelectiveAcknowledgement(first, rest)) => {
            let blocks: Vec<_> = std::iter::once(first).chain(rest.into_iter().flatten()).collect();
            let edges = |(index, block): (usize, &(u32, u32))| {
                format!(" blocks.{index}.left_edge={} blocks.{index}.right_edge={}", block.0, block.1)
            };
            let edges: String = blocks.iter().enumerate().map(edges).collect();
            format!("{what}{edges} block_count={} kind=5", blocks.len())
        }
        Ok(Timestamp(value, reply)) => {
            line(what, &[("timestamp", value as usize), ("echoed_timestamp", reply as usize), ("kind", 8)])
        }
        Err(TcpOptionReadError::UnexpectedEndOfSlice { option_id, expected_len, actual_len }) => line(
            what,
            &[("there", actual_len), ("fault", 1), ("kind", option_id.into()), ("needed", expected_len.into())],
        ),
        Err(TcpOptionReadError::UnexpectedSize { option_id, size }) => {
            line(what, &[("fault", 2), ("kind", option_id.into()), ("stated_len", size.into())])
        }
        Err(TcpOptionReadError::UnknownId(kind)) => line(what, &[("fault", 3), ("kind", kind.into())]),
    }
}

/// A header that starts at this offset, and where it ends.
fn extension_line(start: usize, extension: Extension<'_>) -> (String, usize) {
    let raw = |header: RawExtension<'_>, layer: usize, number: usize| {
        let len = header.payload.len() + 2;
        let parts = format!("extension header={start}+{len} payload={}+{}", start + 2, len - 2);
        (line(&parts, &[("layer", layer), ("number", number), ("next_header", header.next_header.into())]), start + len)
    };
    match extension {
        Extension::HopByHop(header) => raw(header, 14, 0),
        Extension::DestinationOptions(header) => raw(header, 15, 60),
        Extension::Routing(header) => raw(header, 16, 43),
        Extension::Fragment(header) => {
            let fields = [
                ("layer", 17),
                ("identification", header.identification as usize),
                ("fragment_offset", header.fragment_offset.into()),
                ("number", 44),
                ("next_header", header.next_header.into()),
                ("more_fragments", header.more_fragments.into()),
            ];
            (line(&format!("extension header={start}+8"), &fields), start + 8)
        }
        Extension::Authentication(header) => {
            let len = header.raw_icv.len() + 12;
            let parts = format!("extension header={start}+{len} payload={}+{}", start + 12, len - 12);
            let fields = [
                ("layer", 10),
                ("spi", header.spi as usize),
                ("sequence_number", header.sequence_number as usize),
                ("number", 51),
                ("next_header", header.next_header.into()),
            ];
            (line(&parts, &fields), start + len)
        }
    }
}

fn icmp_line(icmp: IcmpType) -> String {
    match icmp {
        IcmpType::Unknown { .. } => line("icmp", &[("kind", 1)]),
        IcmpType::EchoRequest(echo) => line("icmp", &[("kind", 2), ("id", echo.id.into()), ("sequence_number", echo.seq.into())]),
        IcmpType::EchoReply(echo) => line("icmp", &[("kind", 3), ("id", echo.id.into()), ("sequence_number", echo.seq.into())]),
        IcmpType::DestinationUnreachable { next_hop_mtu, .. } => line("icmp", &[("kind", 4), ("mtu", next_hop_mtu.into())]),
        IcmpType::Redirect { gateway_internet_address, .. } => {
            format!("icmp kind=5 gateway={}", hex(&gateway_internet_address.octets()))
        }
        IcmpType::TimeExceeded { .. } => line("icmp", &[("kind", 6)]),
        IcmpType::ParameterProblem { pointer, .. } => line("icmp", &[("kind", 7), ("pointer", pointer as usize)]),
        IcmpType::TimestampRequest(times) | IcmpType::TimestampReply(times) => line(
            "icmp",
            &[
                ("kind", if matches!(icmp, IcmpType::TimestampRequest(_)) { 8 } else { 9 }),
                ("originate_timestamp", times.originate_timestamp as usize),
                ("receive_timestamp", times.receive_timestamp as usize),
                ("transmit_timestamp", times.transmit_timestamp as usize),
                ("id", times.id.into()),
                ("sequence_number", times.seq.into()),
            ],
        ),
        IcmpType::PacketTooBig { mtu } => line("icmp", &[("kind", 10), ("mtu", mtu as usize)]),
    }
}

fn ndp_line(message: NdpMessage) -> String {
    let options_offset = options_offset(message);
    let with = |line: String, name: &str, address: Ipv6Addr| format!("{line} {name}={}", hex(&address.octets()));
    match message {
        NdpMessage::RouterSolicitation => line("ndp", &[("options_offset", options_offset), ("icmp_type", 133)]),
        NdpMessage::RouterAdvertisement { cur_hop_limit, managed, other, router_lifetime, reachable_time, retrans_timer } => line(
            "ndp",
            &[
                ("options_offset", options_offset),
                ("reachable_time", reachable_time as usize),
                ("retrans_timer", retrans_timer as usize),
                ("router_lifetime", router_lifetime.into()),
                ("icmp_type", 134),
                ("hop_limit", cur_hop_limit.into()),
                ("managed", managed.into()),
                ("other", other.into()),
            ],
        ),
        NdpMessage::NeighborSolicitation { target } => {
            with(line("ndp", &[("options_offset", options_offset), ("icmp_type", 135)]), "target", target)
        }
        NdpMessage::NeighborAdvertisement { router, solicited, overrides, target } => {
            let flags = [("router", router.into()), ("solicited", solicited.into()), ("overrides", overrides.into())];
            let fields = line("ndp", &[("options_offset", options_offset), ("icmp_type", 136), flags[0], flags[1], flags[2]]);
            with(fields, "target", target)
        }
        NdpMessage::Redirect { target, destination } => {
            let fields = line("ndp", &[("options_offset", options_offset), ("icmp_type", 137)]);
            with(with(fields, "target", target), "destination", destination)
        }
    }
}

/// An option that starts at this offset of its message, and where it ends.
fn ndp_option_line(start: usize, option: NdpOption<'_>) -> (String, usize) {
    let of_len = |len: usize, fields: &[(&str, usize)]| (line(&format!("ndp_option option={start}+{len}"), fields), start + len);
    let carrying = |before: usize, carried: &[u8], fields: &[(&str, usize)]| {
        let len = carried.len();
        let parts = format!("ndp_option option={start}+{} carried={}+{len}", before + len, start + before);
        (line(&parts, fields), start + before + len)
    };
    match option {
        NdpOption::SourceLinkLayerAddress(address) => carrying(2, address, &[("kind", 2), ("option_type", 1)]),
        NdpOption::TargetLinkLayerAddress(address) => carrying(2, address, &[("kind", 3), ("option_type", 2)]),
        NdpOption::PrefixInformation(prefix) => {
            let fields = [
                ("kind", 4),
                ("valid_lifetime", prefix.valid_lifetime as usize),
                ("preferred_lifetime", prefix.preferred_lifetime as usize),
                ("option_type", 3),
                ("prefix_length", prefix.prefix_length.into()),
                ("on_link", prefix.on_link.into()),
                ("autonomous", prefix.autonomous.into()),
            ];
            let (line, end) = of_len(32, &fields);
            (format!("{line} prefix={}", hex(&prefix.prefix.octets())), end)
        }
        NdpOption::RedirectedHeader(packet) => carrying(8, packet, &[("kind", 5), ("option_type", 4)]),
        NdpOption::Mtu(mtu) => of_len(8, &[("kind", 6), ("mtu", mtu as usize), ("option_type", 5)]),
        NdpOption::RecursiveDnsServer { lifetime, addresses } => {
            let carried: Vec<u8> = addresses.flat_map(|address| address.octets()).collect();
            carrying(8, &carried, &[("kind", 7), ("lifetime", lifetime as usize), ("option_type", 25)])
        }
        NdpOption::DnsSearchList { lifetime, names } => {
            carrying(8, names, &[("kind", 8), ("lifetime", lifetime as usize), ("option_type", 31)])
        }
        NdpOption::Unknown { kind, bytes } => carrying(2, bytes, &[("kind", 1), ("option_type", kind.into())]),
    }
}

/// Why there is no option, of which the first is at this offset of its message.
fn ndp_fault_line(first: usize, error: NdpOptionError) -> String {
    match error {
        NdpOptionError::UnexpectedEnd { offset, needed_len, actual_len } => {
            let fields = [("needed", needed_len), ("there", actual_len), ("kind", 9), ("fault", 1)];
            line(&format!("ndp_option option={}+0", first + offset), &fields)
        }
        NdpOptionError::ZeroLength { offset } => {
            line(&format!("ndp_option option={}+0", first + offset), &[("kind", 9), ("fault", 2)])
        }
    }
}

/// A line with the address of a group, unless that is all zeros.
fn about(line: String, group: impl Into<IpAddr>) -> String {
    match group.into() {
        group if group.is_unspecified() => line,
        IpAddr::V4(group) => format!("{line} group={:0<32}", hex(&group.octets())),
        IpAddr::V6(group) => format!("{line} group={}", hex(&group.octets())),
    }
}

/// The lines of a report of records in a message of this length.
fn report_lines<'a, A>(what: &str, len: usize, records: GroupRecords<'a, A>) -> Vec<String>
where
    A: Into<IpAddr>,
    GroupRecords<'a, A>: Iterator<Item = Result<GroupRecord<'a, A>, GroupRecordError>>,
    Addresses<'a, A>: ExactSizeIterator,
{
    let is_ipv6 = what == "mld";
    let address_len = if is_ipv6 { 16 } else { 4 };
    let report = format!("{what} records.left=8+{}", len - 8);
    let fields = [("records.count", records.count_left().into()), ("records.is_ipv6", is_ipv6.into()), ("kind", 6)];
    let mut lines = vec![line(&report, &fields)];
    let mut start = 8;
    for record in records {
        lines.push(match record {
            Ok(record) => {
                let at = start;
                let sources = at + 4 + address_len;
                let data = sources + address_len * record.sources.len();
                start = data + record.auxiliary_data.len();
                let bytes = format!("group_record bytes={at}+{} sources={sources}+{}", start - at, data - sources);
                let bytes = format!("{bytes} auxiliary_data={data}+{}", start - data);
                about(line(&bytes, &[("kind", 1), ("record_type", record.kind.into())]), record.group)
            }
            Err(error) => {
                let fields = [("needed", error.needed_len), ("there", error.actual_len), ("kind", 2)];
                line(&format!("group_record bytes={}+0", 8 + error.offset), &fields)
            }
        });
    }
    lines
}

fn too_short_line(what: &str, error: MulticastError) -> Vec<String> {
    vec![line(what, &[("needed", error.needed_len), ("there", error.actual_len), ("kind", 7)])]
}

fn igmp_lines(len: usize, message: Result<IgmpMessage<'_>, MulticastError>) -> Vec<String> {
    let of_group = |kind: usize, max_response: u8, group: Ipv4Addr| {
        about(line("igmp", &[("kind", kind), ("max_response", max_response.into())]), group)
    };
    vec![match message {
        Ok(IgmpMessage::Query { max_response_time, group }) => of_group(1, max_response_time, group),
        Ok(IgmpMessage::QueryV3 { max_response_code, group, sources }) => {
            let query = format!("igmp sources=12+{}", 4 * sources.len());
            about(line(&query, &[("kind", 2), ("max_response", max_response_code.into())]), group)
        }
        Ok(IgmpMessage::ReportV1 { group }) => of_group(3, 0, group),
        Ok(IgmpMessage::ReportV2 { group }) => of_group(4, 0, group),
        Ok(IgmpMessage::Leave { group }) => of_group(5, 0, group),
        Ok(IgmpMessage::ReportV3(records)) => return report_lines("igmp", len, records),
        Err(error) => return too_short_line("igmp", error),
    }]
}

fn mld_lines(len: usize, message: Result<MldMessage<'_>, MulticastError>) -> Vec<String> {
    let of_group = |kind: usize, max_response: u16, group: Ipv6Addr| {
        about(line("mld", &[("kind", kind), ("max_response", max_response.into())]), group)
    };
    vec![match message {
        Ok(MldMessage::Query { max_response_delay, group }) => of_group(1, max_response_delay, group),
        Ok(MldMessage::QueryV2 { max_response_code, group, sources }) => {
            let query = format!("mld sources=28+{}", 16 * sources.len());
            about(line(&query, &[("kind", 2), ("max_response", max_response_code.into())]), group)
        }
        Ok(MldMessage::Report { group }) => of_group(3, 0, group),
        Ok(MldMessage::Done { group }) => of_group(5, 0, group),
        Ok(MldMessage::ReportV2(records)) => return report_lines("mld", len, records),
        Err(error) => return too_short_line("mld", error),
    }]
}

/// The offset of the options in a message of neighbor discovery.
fn options_offset(message: NdpMessage) -> usize {
    match message {
        NdpMessage::RouterSolicitation => 8,
        NdpMessage::RouterAdvertisement { .. } => 16,
        NdpMessage::NeighborSolicitation { .. } | NdpMessage::NeighborAdvertisement { .. } => 24,
        NdpMessage::Redirect { .. } => 40,
    }
}

/// The lines of a packet, but those of where options start.
fn lines(packet: &Packet<'_>) -> Vec<String> {
    let mut lines: Vec<_> = packet.tcp_options().map(option_line).collect();
    let mut start = if packet.fields().net == 4 { packet.fields().ipv4.extensions } else { packet.fields().ipv6.extensions }.offset;
    for extension in packet.extensions() {
        let (line, end) = extension_line(start, extension);
        lines.push(line);
        start = end;
    }
    lines.extend(packet.icmp_type().map(icmp_line));
    lines.extend(packet.ndp().map(ndp_line));
    let first = packet.ndp().map_or(0, options_offset);
    start = first;
    for option in packet.ndp_options() {
        match option {
            Ok(option) => {
                let (line, end) = ndp_option_line(start, option);
                lines.push(line);
                start = end;
            }
            Err(error) => lines.push(ndp_fault_line(first, error)),
        }
    }
    let fields = packet.fields();
    let icmp_len = fields.icmp.header.len + fields.icmp.payload.len;
    lines.extend(packet.mld().into_iter().flat_map(|message| mld_lines(icmp_len, message)));
    lines.extend(packet.igmp().into_iter().flat_map(|message| igmp_lines(fields.ipv4.payload.len, message)));
    lines
}

#[test]
fn table() {
    let table = fs::read_to_string(TABLE).unwrap();
    let mut rows = 0;
    for row in table.split("\n# ").filter(|row| row.contains("\nethernet ")) {
        let mut words = row.lines().skip_while(|line| !line.starts_with("ethernet ")).map(str::to_string);
        let frame = bytes(&words.next().unwrap()["ethernet ".len()..]);
        let packet = slice_ethernet(&frame).unwrap();
        let (parts, wanted): (Vec<_>, Vec<_>) = words.partition(|line| line.contains(" part="));
        assert_eq!(lines(&packet), wanted, "{row}");
        assert_eq!(lines(slice_ethernet_lax(&frame).unwrap().packet()), wanted, "{row}");
        let options = parts.iter().find_map(|line| line.strip_prefix("ipv4_options part=34+"));
        assert_eq!(packet.ipv4_options().len(), options.map_or(0, |len| len.parse().unwrap()), "{row}");
        rows += 1;
    }
    assert_eq!(rows, 93);
}

#[test]
fn iterators_end() {
    // A maximum segment size, and then an option of an unknown kind.
    let frame = bytes(
        "0200000000020200000000010800450000300007000040060000\
         0a0000010a00000200509c40000000010000000270101000000000000204000113040000",
    );
    let packet = slice_ethernet(&frame).unwrap();
    let mut options = packet.tcp_options();
    assert_eq!(options.next(), Some(Ok(TcpOptionElement::MaximumSegmentSize(1))));
    let fault = options.next().unwrap().unwrap_err();
    assert_eq!(fault.to_string(), "TCP option of kind 19: the kind is unknown");
    assert_eq!((options.next(), options.next()), (None, None));
    assert_eq!((packet.icmp_type(), packet.ndp(), packet.extensions().count()), (None, None, 0));
}

#[test]
fn codes_of_icmp() {
    // A redirect for a host, and a type that has no kind.
    let found = |message: &str| {
        let frame = bytes(&format!("0200000000020200000000010800450000200007000040010000{message}"));
        slice_ethernet(&frame).unwrap().icmp_type()
    };
    assert_eq!(
        found("0a0000010a000002050100000a0000fe00000000"),
        Some(IcmpType::Redirect { code_u8: 1, gateway_internet_address: [10, 0, 0, 254].into() })
    );
    assert_eq!(
        found("0a0000010a0000020f0200000102030400000000"),
        Some(IcmpType::Unknown { type_u8: 15, code_u8: 2, bytes5to8: [1, 2, 3, 4] })
    );
}
