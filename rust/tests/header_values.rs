//! The values that options of neighbor discovery and messages of multicast groups carry, in frames of c/tests/header_fields.txt.

use etherparse_proved::{
    slice_ethernet, GroupRecord, IgmpMessage, MldMessage, MulticastError, NdpOption, NdpOptionError, PrefixInformation,
};
use std::fs;
use std::net::{Ipv4Addr, Ipv6Addr};

const TABLE: &str = concat!(env!("CARGO_MANIFEST_DIR"), "/../c/tests/header_fields.txt");

/// The frame of the row whose head begins so.
fn frame_of(head: &str) -> Vec<u8> {
    let table = fs::read_to_string(TABLE).unwrap();
    let row = table.split("\n# ").find(|row| row.starts_with(head)).unwrap();
    let hex = row.lines().find_map(|line| line.strip_prefix("ethernet ")).unwrap();
    (0..hex.len() / 2).map(|i| u8::from_str_radix(&hex[2 * i..2 * i + 2], 16).unwrap()).collect()
}

fn options(frame: &[u8]) -> Vec<Result<NdpOption<'_>, NdpOptionError>> {
    slice_ethernet(frame).unwrap().ndp_options().collect()
}

fn igmp(frame: &[u8]) -> Result<IgmpMessage<'_>, MulticastError> {
    slice_ethernet(frame).unwrap().igmp().unwrap()
}

fn mld(frame: &[u8]) -> Result<MldMessage<'_>, MulticastError> {
    slice_ethernet(frame).unwrap().mld().unwrap()
}

fn v6(text: &str) -> Ipv6Addr {
    text.parse().unwrap()
}

#[test]
fn options_of_a_router() {
    let frame = frame_of("router advertisement with the options of a router");
    let options: Vec<_> = options(&frame).into_iter().map(Result::unwrap).collect();
    assert_eq!(options.len(), 6);
    assert_eq!(options[0], NdpOption::SourceLinkLayerAddress(&[2, 0, 0, 0, 0, 1]));
    assert_eq!(options[1], NdpOption::Mtu(1500));
    assert_eq!(
        options[2],
        NdpOption::PrefixInformation(PrefixInformation {
            prefix_length: 64,
            on_link: true,
            autonomous: true,
            valid_lifetime: 2_592_000,
            preferred_lifetime: 604_800,
            prefix: v6("2001:db8::"),
        })
    );
    match options[3].clone() {
        NdpOption::RecursiveDnsServer { lifetime, addresses } => {
            assert_eq!((lifetime, addresses.len()), (3600, 2));
            assert_eq!(addresses.collect::<Vec<_>>(), [v6("2001:db8::53"), v6("2001:db8::54")]);
        }
        other => panic!("{other:?}"),
    }
    assert_eq!(options[4], NdpOption::DnsSearchList { lifetime: 3600, names: b"\x07example\x03com\0\0\0\0" });
    let route = [48, 8, 0, 0, 14, 16, 32, 1, 13, 184, 0, 0, 0, 0];
    assert_eq!(options[5], NdpOption::Unknown { kind: 24, bytes: &route });
}

#[test]
fn options_of_a_redirect() {
    let frame = frame_of("redirect with the target's link-layer address");
    let packet = slice_ethernet(&frame).unwrap();
    let mut options = packet.ndp_options();
    assert_eq!(options.next(), Some(Ok(NdpOption::TargetLinkLayerAddress(&[2, 0, 0, 0, 0, 9]))));
    // After the headers of Ethernet and IPv6, the message's 40 bytes, the first option, and 8 bytes of the second one.
    assert_eq!(options.next(), Some(Ok(NdpOption::RedirectedHeader(&frame[14 + 40 + 40 + 8 + 8..]))));
    assert_eq!((options.next(), options.next()), (None, None));
}

#[test]
fn faults_of_options() {
    let fault = |head: &str| options(&frame_of(head)).pop().unwrap().unwrap_err().to_string();
    assert_eq!(fault("an option of length 0"), "neighbor discovery option at offset 8: the length is 0");
    assert_eq!(
        fault("a prefix of which half is missing"),
        "neighbor discovery option at offset 0: 32 byte(s) are needed, and 16 are left"
    );
}

#[test]
fn records_over_ipv4() {
    let frame = frame_of("IGMP: report of version 3 with a record of each type");
    let records = match igmp(&frame) {
        Ok(IgmpMessage::ReportV3(records)) => records,
        other => panic!("{other:?}"),
    };
    assert_eq!((records.count_left(), records.clone().count()), (6, 6));
    let records: Vec<GroupRecord<'_, Ipv4Addr>> = records.map(Result::unwrap).collect();
    let of_both = records[2].clone();
    assert_eq!((of_both.kind, of_both.group), (3, Ipv4Addr::new(239, 1, 2, 3)));
    assert_eq!(of_both.sources.collect::<Vec<_>>(), [Ipv4Addr::new(10, 0, 0, 1), Ipv4Addr::new(10, 0, 0, 2)]);
    assert_eq!((of_both.auxiliary_data, records[1].sources.len()), (&[][..], 0));
    assert_eq!(records[4].auxiliary_data, [0xde, 0xad, 0xbe, 0xef, 1, 2, 3, 4]);
}

#[test]
fn records_over_ipv6() {
    let frame = frame_of("report of version 2 with a record of each type");
    let mut records = match mld(&frame) {
        Ok(MldMessage::ReportV2(records)) => records,
        other => panic!("{other:?}"),
    };
    let record: GroupRecord<'_, Ipv6Addr> = records.nth(4).unwrap().unwrap();
    assert_eq!((record.kind, record.group), (5, v6("ff05::1:5")));
    assert_eq!(record.sources.collect::<Vec<_>>(), [v6("2001:db8::2")]);
    assert_eq!(record.auxiliary_data, [0xde, 0xad, 0xbe, 0xef]);
}

#[test]
fn sources_of_queries() {
    match igmp(&frame_of("IGMP: query of version 3 for two sources")) {
        Ok(IgmpMessage::QueryV3 { max_response_code, group, sources }) => {
            assert_eq!((max_response_code, group), (138, Ipv4Addr::new(239, 1, 2, 3)));
            assert_eq!(sources.collect::<Vec<_>>(), [Ipv4Addr::new(10, 0, 0, 1), Ipv4Addr::new(10, 0, 0, 2)]);
        }
        other => panic!("{other:?}"),
    }
    match mld(&frame_of("query of version 2 for two sources")) {
        Ok(MldMessage::QueryV2 { max_response_code, group, sources }) => {
            assert_eq!((max_response_code, group), (33768, v6("ff05::1:3")));
            assert_eq!(sources.collect::<Vec<_>>(), [v6("2001:db8::1"), v6("2001:db8::2")]);
        }
        other => panic!("{other:?}"),
    }
}

#[test]
fn faults_of_groups() {
    let error = igmp(&frame_of("IGMP: report of version 2 of which one byte")).unwrap_err();
    assert_eq!(error.to_string(), "multicast group message: 8 byte(s) are needed, and 7 are there");
    let frame = frame_of("report of version 2 that names two more records");
    let mut records = match mld(&frame) {
        Ok(MldMessage::ReportV2(records)) => records,
        other => panic!("{other:?}"),
    };
    assert!(records.next().unwrap().is_ok());
    assert_eq!(records.count_left(), 2);
    let error = records.next().unwrap().unwrap_err();
    assert_eq!(error.to_string(), "group record at offset 20: 20 byte(s) are needed, and 0 are left");
    assert_eq!((records.next(), records.next(), records.count_left()), (None, None, 0));
}

#[test]
fn packets_of_other_protocols() {
    let frame = frame_of("IGMP: report of version 1");
    let packet = slice_ethernet(&frame).unwrap();
    assert_eq!((packet.mld(), packet.ndp_options().count()), (None, 0));
    let frame = frame_of("report of version 1");
    let packet = slice_ethernet(&frame).unwrap();
    assert_eq!((packet.igmp(), packet.ndp_options().count()), (None, 0));
}
