//! The benchmarks of library calls of `benchmarks` in plain Rust, a module for each kind of packet, with the same
//! arguments and the same lines.

mod built_frames;
mod checksums;
mod datagrams;
mod echoes;
mod fault;
mod ip_packets;
mod ipv4_headers;
mod ipv6_extensions;
mod job;
mod lax_packets;
mod links;
mod random;
mod segments;
mod sliced_packets;

use crate::built_frames::{TcpIpv6, UdpIpv4};
use crate::checksums::Checksums;
use crate::datagrams::UdpDatagrams;
use crate::echoes::{Icmpv4Echoes, Icmpv6Echoes};
use crate::ip_packets::{Ipv4Packets, Ipv6Packets, Ipv6PacketsTwoExtensions};
use crate::ipv4_headers::Ipv4Headers;
use crate::ipv6_extensions::{ReadExtensions, SkippedExtensions};
use crate::job::{Measured, Repeats};
use crate::lax_packets::LaxSlicedMix;
use crate::links::{ArpPackets, EthernetFrames, VlanTags};
use crate::segments::TcpSegments;
use crate::sliced_packets::{SlicedFrames, SlicedMix};
use std::process::ExitCode;

fn main() -> ExitCode {
    let words: Vec<String> = std::env::args().skip(1).collect();
    let is_timed = words.first().is_some_and(|word| word == "--timed");
    let repeats = if is_timed {
        Repeats {
            blocks: 50,
            turns: 20,
        }
    } else {
        Repeats {
            blocks: 1,
            turns: 1,
        }
    };
    for name in words.iter().skip(usize::from(is_timed)) {
        let Some(measured) = measure(name, repeats) else {
            eprintln!("plain_calls: no benchmark has the name {name}");
            return ExitCode::FAILURE;
        };
        let sum = measured.sum;
        if is_timed {
            println!("{name} {sum} {}", measured.fastest.as_nanos());
        } else {
            println!("{name} {sum}");
        }
    }
    ExitCode::SUCCESS
}

fn measure(name: &str, repeats: Repeats) -> Option<Measured> {
    let measured = match name {
        "ipv4_headers" => job::measure::<Ipv4Headers>(repeats),
        "ipv4_packets" => job::measure::<Ipv4Packets>(repeats),
        "ipv6_packets" => job::measure::<Ipv6Packets>(repeats),
        "ipv6_packets_two_extensions" => job::measure::<Ipv6PacketsTwoExtensions>(repeats),
        "skipped_extensions_0" => job::measure::<SkippedExtensions<0>>(repeats),
        "skipped_extensions_1" => job::measure::<SkippedExtensions<1>>(repeats),
        "skipped_extensions_4" => job::measure::<SkippedExtensions<4>>(repeats),
        "read_extensions_0" => job::measure::<ReadExtensions<0>>(repeats),
        "read_extensions_1" => job::measure::<ReadExtensions<1>>(repeats),
        "read_extensions_4" => job::measure::<ReadExtensions<4>>(repeats),
        "udp_datagrams" => job::measure::<UdpDatagrams>(repeats),
        "tcp_segments" => job::measure::<TcpSegments>(repeats),
        "checksums_20" => job::measure::<Checksums<20>>(repeats),
        "checksums_64" => job::measure::<Checksums<64>>(repeats),
        "checksums_576" => job::measure::<Checksums<576>>(repeats),
        "checksums_1500" => job::measure::<Checksums<1500>>(repeats),
        "ethernet_frames" => job::measure::<EthernetFrames>(repeats),
        "vlan_tags" => job::measure::<VlanTags>(repeats),
        "arp_packets" => job::measure::<ArpPackets>(repeats),
        "icmpv4_echoes" => job::measure::<Icmpv4Echoes>(repeats),
        "icmpv6_echoes" => job::measure::<Icmpv6Echoes>(repeats),
        "sliced_udp_ipv4" => job::measure::<SlicedFrames<0>>(repeats),
        "sliced_tcp_ipv4" => job::measure::<SlicedFrames<1>>(repeats),
        "sliced_udp_ipv6" => job::measure::<SlicedFrames<2>>(repeats),
        "sliced_one_vlan" => job::measure::<SlicedFrames<3>>(repeats),
        "sliced_two_vlans" => job::measure::<SlicedFrames<4>>(repeats),
        "sliced_ipv6_options" => job::measure::<SlicedFrames<5>>(repeats),
        "sliced_arp" => job::measure::<SlicedFrames<6>>(repeats),
        "sliced_refused" => job::measure::<SlicedFrames<7>>(repeats),
        "sliced_mix" => job::measure::<SlicedMix>(repeats),
        "lax_sliced_mix" => job::measure::<LaxSlicedMix>(repeats),
        "built_udp_ipv4" => built_frames::measure::<UdpIpv4>(repeats),
        "built_tcp_ipv6" => built_frames::measure::<TcpIpv6>(repeats),
        _ => return None,
    };
    Some(measured)
}
