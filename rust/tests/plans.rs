//! The packets that plans are built as, and those that are built step by step.

use etherparse_proved::{
    build, ArpPacket, BuildError, DoubleVlanHeader, IcmpEchoHeader, IcmpType, IpAuthHeader, IpHeaders, IpStep, Ipv4Extensions,
    Ipv4Header, Ipv6Extensions, Ipv6FragmentHeader, Ipv6Header, Ipv6RoutingExtensions, PacketBuilder, PacketBuilderStep, Plan,
    PlanField, PlannedAddresses, PlannedEcho, PlannedLink, PlannedTcp, PlannedTransport, SingleVlanHeader, TcpOptionElement,
    TimestampMessage, VlanHeader,
};
use std::collections::HashMap;
use std::fs;
use std::path::Path;

const TABLE: &str = concat!(env!("CARGO_MANIFEST_DIR"), "/../c/tests/plans.txt");

fn bytes(hex: &str) -> Vec<u8> {
    if hex == "-" {
        return Vec::new();
    }
    (0..hex.len() / 2).map(|i| u8::from_str_radix(&hex[2 * i..2 * i + 2], 16).unwrap()).collect()
}

/// The fields of a line of the table that a `Plan` doesn't have.
const MORE: [&str; 20] = [
    "extensions.", "arp.", "outer_priority", "outer_drop_eligible", "inner_priority", "inner_drop_eligible", "ipv4_options",
    "identification", "fragment_offset", "dscp", "ecn", "may_fragment", "more_fragments", "flow_label", "traffic_class",
    "icmp_is_raw", "icmp_type", "icmp_code", "icmp_bytes", "ipv4_options_len",
];

/// The fields of a line of the table.
struct Fields<'a>(HashMap<&'a str, &'a str>);

impl Fields<'_> {
    fn number<T: TryFrom<u64>>(&self, name: &str) -> T {
        let number: u64 = self.0.get(name).map_or(0, |value| value.parse().unwrap());
        T::try_from(number).ok().unwrap()
    }

    fn flag(&self, name: &str) -> bool {
        self.number::<u64>(name) == 1
    }

    fn array<const N: usize>(&self, name: &str) -> [u8; N] {
        self.0.get(name).map_or([0; N], |value| bytes(value).try_into().unwrap())
    }

    fn echo(&self) -> PlannedEcho {
        PlannedEcho {
            is_reply: self.flag("is_reply"),
            id: self.number("echo_id"),
            sequence: self.number("echo_sequence"),
        }
    }

    fn tcp(&self) -> PlannedTcp {
        let len = self.number("options_len");
        let mut options = self.0.get("options").map_or(Vec::new(), |value| bytes(value));
        options.resize(len, 0);
        PlannedTcp {
            source_port: self.number("source_port"),
            destination_port: self.number("destination_port"),
            sequence_number: self.number("sequence_number"),
            acknowledgment_number: self.number("acknowledgment_number"),
            window_size: self.number("window_size"),
            urgent_pointer: self.number("urgent_pointer"),
            ns: self.flag("ns"),
            fin: self.flag("fin"),
            syn: self.flag("syn"),
            rst: self.flag("rst"),
            psh: self.flag("psh"),
            ack: self.flag("ack"),
            urg: self.flag("urg"),
            ece: self.flag("ece"),
            cwr: self.flag("cwr"),
            options,
        }
    }

    fn has(&self, prefix: &str) -> bool {
        self.0.keys().any(|name| name.starts_with(prefix))
    }

    fn bytes(&self, name: &str) -> Vec<u8> {
        self.0.get(name).map_or(Vec::new(), |value| bytes(value))
    }

    /// None where a `Plan` can't say it.
    fn plan(&self) -> Option<Plan> {
        if MORE.iter().any(|name| self.has(name)) {
            return None;
        }
        let tags: usize = self.number("tag_count");
        let link = match (self.number("link"), tags) {
            (0, 0) => PlannedLink::None,
            (1, _) => {
                let mut vlan_ids = vec![self.number("outer_vlan_id"), self.number("inner_vlan_id")];
                vlan_ids.resize(tags, 0);
                PlannedLink::Ethernet2 { source: self.array("source"), destination: self.array("destination"), vlan_ids }
            }
            (2, 0) => PlannedLink::LinuxSll {
                packet_type: self.number("packet_type"),
                address_len: self.number("address_len"),
                address: self.array("address"),
            },
            _ => return None,
        };
        let addresses = match self.number("ip_version") {
            4 => PlannedAddresses::V4 {
                source: self.array::<4>("ipv4_source").into(),
                destination: self.array::<4>("ipv4_destination").into(),
            },
            6 => PlannedAddresses::V6 {
                source: self.array::<16>("ipv6_source").into(),
                destination: self.array::<16>("ipv6_destination").into(),
            },
            _ => return None,
        };
        let transport = match self.number("transport") {
            0 => PlannedTransport::None { payload_number: self.number("payload_number") },
            1 => PlannedTransport::Icmpv4(self.echo()),
            6 => PlannedTransport::Tcp(self.tcp()),
            17 => PlannedTransport::Udp {
                source_port: self.number("source_port"),
                destination_port: self.number("destination_port"),
            },
            58 => PlannedTransport::Icmpv6(self.echo()),
            _ => return None,
        };
        Some(Plan { link, addresses, hops: self.number("hops"), transport })
    }
}

impl Fields<'_> {
    fn tag(&self, place: &str) -> SingleVlanHeader {
        SingleVlanHeader {
            pcp: self.number(&format!("{place}_priority")),
            drop_eligible_indicator: self.flag(&format!("{place}_drop_eligible")),
            vlan_id: self.number(&format!("{place}_vlan_id")),
        }
    }

    fn auth(&self) -> Option<IpAuthHeader> {
        self.flag("extensions.has_authentication").then(|| IpAuthHeader {
            spi: self.number("extensions.spi"),
            sequence_number: self.number("extensions.sequence_number"),
            raw_icv: self.bytes("extensions.integrity_check_value"),
        })
    }

    fn header(&self, name: &str) -> Option<Vec<u8>> {
        let name = format!("extensions.{name}");
        self.has(&name).then(|| self.bytes(&name))
    }

    /// None where these structs can't say it.
    fn ip(&self) -> Option<IpHeaders> {
        let parts = self.0.values().any(|value| value.starts_with('@'));
        let mut options = self.bytes("ipv4_options");
        options.resize(self.number("ipv4_options_len"), 0);
        let (routing, last) = (self.header("routing"), self.header("final_destination_options"));
        match self.number("ip_version") {
            4 if ["hop_by_hop_options", "destination_options", "routing", "final_destination_options", "has_fragment_header"]
                .iter()
                .all(|name| !self.has(&format!("extensions.{name}"))) =>
            {
                let header = Ipv4Header {
                    dscp: self.number("dscp"),
                    ecn: self.number("ecn"),
                    identification: self.number("identification"),
                    dont_fragment: !self.flag("may_fragment"),
                    more_fragments: self.flag("more_fragments"),
                    fragment_offset: self.number("fragment_offset"),
                    time_to_live: self.number("hops"),
                    source: self.array("ipv4_source"),
                    destination: self.array("ipv4_destination"),
                    options,
                };
                Some(IpHeaders::Ipv4(header, Ipv4Extensions { auth: self.auth() }))
            }
            6 if !parts && (routing.is_some() || last.is_none()) => {
                let header = Ipv6Header {
                    traffic_class: self.number("traffic_class"),
                    flow_label: self.number("flow_label"),
                    hop_limit: self.number("hops"),
                    source: self.array("ipv6_source"),
                    destination: self.array("ipv6_destination"),
                };
                let extensions = Ipv6Extensions {
                    hop_by_hop_options: self.header("hop_by_hop_options"),
                    destination_options: self.header("destination_options"),
                    routing: routing.map(|routing| Ipv6RoutingExtensions { routing, final_destination_options: last }),
                    fragment: self.flag("extensions.has_fragment_header").then(|| Ipv6FragmentHeader {
                        fragment_offset: self.number("extensions.fragment_offset"),
                        more_fragments: self.flag("extensions.more_fragments"),
                        identification: self.number("extensions.identification"),
                    }),
                    auth: self.auth(),
                };
                Some(IpHeaders::Ipv6(header, extensions))
            }
            _ => None,
        }
    }

    fn arp(&self) -> ArpPacket {
        ArpPacket {
            hw_addr_type: self.number("arp.hardware_type"),
            proto_addr_type: self.number("arp.protocol_type"),
            operation: self.number("arp.operation"),
            sender_hw_addr: self.bytes("arp.sender_hardware"),
            sender_protocol_addr: self.bytes("arp.sender_protocol"),
            target_hw_addr: self.bytes("arp.target_hardware"),
            target_protocol_addr: self.bytes("arp.target_protocol"),
        }
    }

    /// What the steps for a line build; None where they can't say it.
    fn steps(&self, payload: &[u8]) -> Option<Result<Vec<u8>, BuildError>> {
        let (link, tags): (u8, u32) = (self.number("link"), self.number("tag_count"));
        let ethernet = || PacketBuilder::ethernet2(self.array("source"), self.array("destination"));
        let capture =
            || PacketBuilder::linux_sll(self.number("packet_type"), self.number("address_len"), self.array("address"));
        let vlan = || match tags {
            1 => VlanHeader::Single(self.tag("outer")),
            _ => VlanHeader::Double(DoubleVlanHeader { outer: self.tag("outer"), inner: self.tag("inner") }),
        };
        if tags > 2 || tags > 0 && link != 1 {
            return None;
        }
        let mut packet = vec![7, 8, 9];
        let written = if self.has("arp.") {
            let step = match (link, tags) {
                _ if self.0.values().any(|value| value.starts_with('@')) => return None,
                (1, 0) => ethernet().arp(self.arp()),
                (1, _) => ethernet().vlan(vlan()).arp(self.arp()),
                (2, _) => capture().arp(self.arp()),
                _ => return None,
            };
            step.write(&mut packet)
        } else {
            let ip = self.ip()?;
            let step = match (link, tags) {
                (0, _) => PacketBuilder::ip(ip),
                (1, 0) => ethernet().ip(ip),
                (1, _) => ethernet().vlan(vlan()).ip(ip),
                (2, _) => capture().ip(ip),
                _ => return None,
            };
            self.transport(step, &mut packet, payload)?
        };
        Some(match written {
            Ok(()) => {
                assert_eq!(packet[..3], [7, 8, 9]);
                Ok(packet.split_off(3))
            }
            Err(error) => {
                assert_eq!(packet, [7, 8, 9]);
                Err(error)
            }
        })
    }

    fn transport(
        &self,
        step: PacketBuilderStep<IpStep>,
        packet: &mut Vec<u8>,
        payload: &[u8],
    ) -> Option<Result<(), BuildError>> {
        let (id, seq) = (self.number("echo_id"), self.number("echo_sequence"));
        let raw = (self.number("icmp_type"), self.number("icmp_code"), self.array("icmp_bytes"));
        Some(match (self.number("transport"), self.flag("icmp_is_raw"), self.flag("is_reply")) {
            (0, _, _) => step.write(packet, self.number("payload_number"), payload),
            (1, true, _) => step.icmpv4_raw(raw.0, raw.1, raw.2).write(packet, payload),
            (1, _, false) => step.icmpv4_echo_request(id, seq).write(packet, payload),
            (1, _, true) => step.icmpv4_echo_reply(id, seq).write(packet, payload),
            (6, _, _) => self.flags(step).write(packet, payload),
            (17, _, _) => {
                step.udp(self.number("source_port"), self.number("destination_port")).write(packet, payload)
            }
            (58, true, _) => step.icmpv6_raw(raw.0, raw.1, raw.2).write(packet, payload),
            (58, _, false) => step.icmpv6_echo_request(id, seq).write(packet, payload),
            (58, _, true) => step.icmpv6_echo_reply(id, seq).write(packet, payload),
            _ => return None,
        })
    }

    /// The steps of TCP, each by a call of its own where the flag or number is there.
    fn flags(&self, step: PacketBuilderStep<IpStep>) -> PacketBuilderStep<etherparse_proved::TcpStep> {
        let tcp = self.tcp();
        let mut step = step.tcp(tcp.source_port, tcp.destination_port, tcp.sequence_number, tcp.window_size);
        if tcp.ns {
            step = step.ns();
        }
        if tcp.fin {
            step = step.fin();
        }
        if tcp.syn {
            step = step.syn();
        }
        if tcp.rst {
            step = step.rst();
        }
        if tcp.psh {
            step = step.psh();
        }
        if tcp.ack {
            step = step.ack(tcp.acknowledgment_number);
        }
        if tcp.urg {
            step = step.urg(tcp.urgent_pointer);
        }
        if tcp.ece {
            step = step.ece();
        }
        if tcp.cwr {
            step = step.cwr();
        }
        step.options_raw(&tcp.options)
    }
}

const FIELDS: [Option<PlanField>; 24] = [
    Some(PlanField::Link),
    Some(PlanField::PacketType),
    Some(PlanField::TagCount),
    Some(PlanField::OuterVlanId),
    Some(PlanField::OuterPriority),
    Some(PlanField::InnerVlanId),
    Some(PlanField::InnerPriority),
    None,
    Some(PlanField::Dscp),
    Some(PlanField::Ecn),
    Some(PlanField::FragmentOffset),
    Some(PlanField::Ipv4OptionsLen),
    Some(PlanField::FlowLabel),
    Some(PlanField::HopByHopOptions),
    Some(PlanField::DestinationOptions),
    Some(PlanField::Routing),
    Some(PlanField::FragmentHeader),
    Some(PlanField::Authentication),
    Some(PlanField::FinalDestinationOptions),
    Some(PlanField::Transport),
    Some(PlanField::OptionsLen),
    Some(PlanField::HardwareAddresses),
    Some(PlanField::ProtocolAddresses),
    Some(PlanField::Payload),
];

/// Calls a function for each line of the table: its fields, its payload, and what is built of them.
fn each_line(mut call: impl FnMut(Fields<'_>, Vec<u8>, Result<Vec<u8>, BuildError>)) {
    for line in fs::read_to_string(Path::new(TABLE)).unwrap().lines().filter(|line| !line.starts_with('#')) {
        let mut words = line.split(' ');
        let (payload, wanted) = (bytes(words.next().unwrap()), words.next().unwrap());
        let fields = Fields(words.map(|word| word.split_once('=').unwrap()).collect());
        let expected = match wanted.strip_prefix("refused=") {
            Some(number) => {
                let field = FIELDS[number.parse::<usize>().unwrap() - 1];
                // What a caller of these calls can't say has no field; no line with it gets here.
                Err(field.map_or(BuildError::OutOfMemory, BuildError::Refused))
            }
            None => Ok(bytes(wanted)),
        };
        call(fields, payload, expected);
    }
}

#[test]
fn table() {
    let (mut built, mut refused) = (0, 0);
    each_line(|fields, payload, expected| {
        if let Some(plan) = fields.plan() {
            assert_eq!(build(&plan, &payload), expected, "{:?}", fields.0);
            *(if expected.is_ok() { &mut built } else { &mut refused }) += 1;
        }
    });
    assert!(built > 25 && refused > 6, "{built} {refused}");
}

#[test]
fn table_by_steps() {
    let (mut built, mut refused) = (0, 0);
    each_line(|fields, payload, expected| {
        if let Some(found) = fields.steps(&payload) {
            assert_eq!(found, expected, "{:?}", fields.0);
            *(if expected.is_ok() { &mut built } else { &mut refused }) += 1;
        }
    });
    assert!(built > 55 && refused > 25, "{built} {refused}");
}

const ENDS: ([u8; 4], [u8; 4]) = ([192, 168, 1, 1], [192, 168, 1, 2]);

fn over_ipv4() -> PacketBuilderStep<IpStep> {
    PacketBuilder::ipv4(ENDS.0, ENDS.1, 20)
}

fn over_ipv6() -> PacketBuilderStep<IpStep> {
    let end = |last| [0x20, 1, 0xd, 0xb8, 0, 0, 0, 0, 0, 0, 0, 0, 0, 0, 0, last];
    PacketBuilder::ipv6(end(1), end(2), 64)
}

/// Kinds of ICMP messages by the types of RFC 792 and RFC 4443: each is what its type, code and bytes make.
#[test]
fn kinds_of_icmp() {
    let echo = IcmpEchoHeader { id: 258, seq: 772 };
    let times = TimestampMessage {
        id: 1,
        seq: 2,
        originate_timestamp: 3,
        receive_timestamp: 4,
        transmit_timestamp: 5,
    };
    let stamped = [0, 0, 0, 3, 0, 0, 0, 4, 0, 0, 0, 5, 9];
    let kinds = [
        (IcmpType::EchoRequest(echo), (8, 0, [1, 2, 3, 4]), &[9][..]),
        (IcmpType::EchoReply(echo), (0, 0, [1, 2, 3, 4]), &[9]),
        (IcmpType::DestinationUnreachable { code_u8: 4, next_hop_mtu: 1500 }, (3, 4, [0, 0, 5, 0xdc]), &[9]),
        (
            IcmpType::Redirect { code_u8: 1, gateway_internet_address: [10, 9, 8, 7].into() },
            (5, 1, [10, 9, 8, 7]),
            &[9],
        ),
        (IcmpType::TimeExceeded { code_u8: 1 }, (11, 1, [0; 4]), &[9]),
        (IcmpType::ParameterProblem { code_u8: 0, pointer: 255 }, (12, 0, [255, 0, 0, 0]), &[9]),
        (IcmpType::TimestampRequest(times), (13, 0, [0, 1, 0, 2]), &stamped),
        (IcmpType::TimestampReply(times), (14, 0, [0, 1, 0, 2]), &stamped),
        (IcmpType::Unknown { type_u8: 200, code_u8: 7, bytes5to8: [1; 4] }, (200, 7, [1; 4]), &[9]),
    ];
    for (kind, (type_u8, code_u8, bytes), payload) in kinds {
        let (mut found, mut expected) = (Vec::new(), Vec::new());
        over_ipv4().icmpv4(kind).write(&mut found, &[9]).unwrap();
        over_ipv4().icmpv4_raw(type_u8, code_u8, bytes).write(&mut expected, payload).unwrap();
        assert_eq!(found, expected, "{kind:?}");
    }
    let kinds = [
        (IcmpType::EchoRequest(echo), (128, 0, [1, 2, 3, 4])),
        (IcmpType::EchoReply(echo), (129, 0, [1, 2, 3, 4])),
        (IcmpType::DestinationUnreachable { code_u8: 4, next_hop_mtu: 0 }, (1, 4, [0; 4])),
        (IcmpType::PacketTooBig { mtu: 1280 }, (2, 0, [0, 0, 5, 0])),
        (IcmpType::TimeExceeded { code_u8: 1 }, (3, 1, [0; 4])),
        (IcmpType::ParameterProblem { code_u8: 2, pointer: 0x01020304 }, (4, 2, [1, 2, 3, 4])),
    ];
    for (kind, (type_u8, code_u8, bytes)) in kinds {
        let (mut found, mut expected) = (Vec::new(), Vec::new());
        over_ipv6().icmpv6(kind).write(&mut found, &[9]).unwrap();
        over_ipv6().icmpv6_raw(type_u8, code_u8, bytes).write(&mut expected, &[9]).unwrap();
        assert_eq!(found, expected, "{kind:?}");
    }
    let refused = Err(BuildError::Refused(PlanField::Transport));
    for kind in [IcmpType::PacketTooBig { mtu: 1 }, IcmpType::ParameterProblem { code_u8: 0, pointer: 256 }] {
        assert_eq!(over_ipv4().icmpv4(kind).write(&mut Vec::new(), &[]), refused);
    }
    for kind in [
        IcmpType::TimestampReply(times),
        IcmpType::Redirect { code_u8: 0, gateway_internet_address: [0; 4].into() },
        IcmpType::DestinationUnreachable { code_u8: 4, next_hop_mtu: 1 },
    ] {
        assert_eq!(over_ipv6().icmpv6(kind).write(&mut Vec::new(), &[]), refused);
    }
    assert_eq!(over_ipv4().icmpv6_echo_request(1, 2).write(&mut Vec::new(), &[]), refused);
}

/// The bytes of TCP's options by RFC 9293, section 3.2, RFC 7323 and RFC 2018, filled up to whole words.
#[test]
fn options_of_tcp() {
    let options = [
        TcpOptionElement::MaximumSegmentSize(1460),
        TcpOptionElement::SelectiveAcknowledgementPermitted,
        TcpOptionElement::Timestamp(0x01020304, 0x05060708),
        TcpOptionElement::Noop,
        TcpOptionElement::WindowScale(7),
    ];
    let written = [2, 4, 5, 0xb4, 4, 2, 8, 10, 1, 2, 3, 4, 5, 6, 7, 8, 1, 3, 3, 7];
    let blocks = TcpOptionElement::SelectiveAcknowledgement((1, 2), [Some((3, 4)), None, Some((5, 6))]);
    let written_blocks = [5, 26, 0, 0, 0, 1, 0, 0, 0, 2, 0, 0, 0, 3, 0, 0, 0, 4, 0, 0, 0, 5, 0, 0, 0, 6, 0, 0];
    for (options, written) in [(&options[..], &written[..]), (&[blocks], &written_blocks)] {
        let mut packet = Vec::new();
        over_ipv4().tcp(1, 2, 3, 4).options(options).write(&mut packet, &[]).unwrap();
        assert_eq!(packet[40..], *written);
        assert_eq!(usize::from(packet[32] >> 4), 5 + written.len() / 4);
    }
    let many = [TcpOptionElement::WindowScale(1); 14];
    let refused = over_ipv4().tcp(1, 2, 3, 4).options(&many).write(&mut Vec::new(), &[]);
    assert_eq!(refused, Err(BuildError::Refused(PlanField::OptionsLen)));
}

/// An extension header that is there, but has no payload, is refused, not left out.
#[test]
fn empty_headers() {
    for (index, field) in [PlanField::HopByHopOptions, PlanField::DestinationOptions, PlanField::Routing].iter().enumerate() {
        let mut payloads = [None, None, None];
        payloads[index] = Some(Vec::new());
        let [hop_by_hop_options, destination_options, routing] = payloads;
        let routing = routing.map(|routing| Ipv6RoutingExtensions { routing, final_destination_options: None });
        let extensions =
            Ipv6Extensions { hop_by_hop_options, destination_options, routing, ..Ipv6Extensions::default() };
        let step = PacketBuilder::ip(IpHeaders::Ipv6(Ipv6Header::default(), extensions));
        assert_eq!(step.udp(1, 2).write(&mut Vec::new(), &[]), Err(BuildError::Refused(*field)));
    }
}

#[test]
fn longest_payload() {
    let plan = Plan {
        link: PlannedLink::None,
        addresses: PlannedAddresses::V4 { source: [0; 4].into(), destination: [0; 4].into() },
        hops: 1,
        transport: PlannedTransport::Udp { source_port: 1, destination_port: 2 },
    };
    assert_eq!(build(&plan, &[0; 65507]).unwrap().len(), 65535);
    let error = build(&plan, &[0; 65508]).unwrap_err();
    assert_eq!(error, BuildError::Refused(PlanField::Payload));
    assert_eq!(error.to_string(), "no packet has such a field: payload");
}
