//! Safe Rust over `libetherparse` and `libnetlines`, whose code is proved.
//!
//! The exports require nothing but what a slice's type says, and of a session or a pool that only they
//! changed it, one call after another, so that each call is safe.
//!
//! `build.rs` looks for the libraries in the folder that `ETHERPARSE_LIB_DIR` names, else by pkg-config. The feature
//! `static` links the static ones; `rpath` has this crate's own tests and examples find the shared ones.

#![deny(missing_docs)]

mod addresses;
mod captures;
mod fields;
mod flows;
mod groups;
mod ndp_option;
mod packet;
mod packet_builder;
mod plan;
mod planned_tcp;
mod pool;
pub mod raw;
mod refusal;
mod streams;

pub use addresses::Addresses;
pub use captures::{Capture, CaptureError, CaptureFault, CaptureLink, CaptureWriter, CapturedPacket};
pub use fields::{
    AuthenticationExtension, Extension, Extensions, FragmentExtension, IcmpEchoHeader, IcmpType, NdpMessage, RawExtension,
    TcpOptionElement, TcpOptionReadError, TcpOptionsIterator, TimestampMessage,
};
pub use flows::{ConnectionState, Direction, Flow, FlowKey, FlowPacket, Flows, Traffic};
pub use groups::{GroupRecord, GroupRecordError, GroupRecords, IgmpMessage, MldMessage, MulticastError};
pub use ndp_option::{NdpOption, NdpOptionError, NdpOptionsIterator, PrefixInformation};
pub use packet::{LaxPacket, Link, Net, Packet, Stop, Transport};
pub use packet_builder::{
    ArpPacket, ArpStep, BeforeNet, BeforePayload, DoubleVlanHeader, EthernetStep, IpAuthHeader, IpHeaders, IpStep,
    Ipv4Extensions, Ipv4Header, Ipv6Extensions, Ipv6FragmentHeader, Ipv6Header, Ipv6RoutingExtensions, LinkStep,
    MessageStep, PacketBuilder, PacketBuilderStep, SingleVlanHeader, TcpStep, VlanHeader,
};
pub use plan::{
    build, BuildError, Plan, PlanField, PlannedAddresses, PlannedEcho, PlannedLink, PlannedTransport,
};
pub use planned_tcp::PlannedTcp;
pub use pool::{AddError, Message, PartRefusal, Pool};
pub use refusal::{Fault, Layer, LenSource, Refusal};
pub use streams::{AddedSegment, Conflicts, Gap, SegmentError, SegmentFlags, Stream, StreamProgress};

use std::error::Error;
use std::fmt;

/// Slices an Ethernet II frame.
pub fn slice_ethernet(frame: &[u8]) -> Result<Packet<'_>, Refusal> {
    // SAFETY: pointer and length are one slice's, here and below.
    Packet::from_raw(frame, unsafe { raw::ep_slice_ethernet(frame.as_ptr(), frame.len()) })
}

/// Slices a packet of a Linux cooked capture.
pub fn slice_linux_sll(packet: &[u8]) -> Result<Packet<'_>, Refusal> {
    Packet::from_raw(packet, unsafe { raw::ep_slice_linux_sll(packet.as_ptr(), packet.len()) })
}

/// Slices an IP packet of either version.
pub fn slice_ip(packet: &[u8]) -> Result<Packet<'_>, Refusal> {
    Packet::from_raw(packet, unsafe { raw::ep_slice_ip(packet.as_ptr(), packet.len()) })
}

/// Slices an Ethernet II frame as far as it is there, also where it was cut off or a header breaks its format. Refused is one
/// that is shorter than its link header.
pub fn slice_ethernet_lax(frame: &[u8]) -> Result<LaxPacket<'_>, Refusal> {
    LaxPacket::from_raw(frame, unsafe { raw::ep_slice_ethernet_lax(frame.as_ptr(), frame.len()) })
}

/// Slices a packet of a Linux cooked capture as far as it is there. Refused is one whose link header isn't whole or breaks its
/// format.
pub fn slice_linux_sll_lax(packet: &[u8]) -> Result<LaxPacket<'_>, Refusal> {
    LaxPacket::from_raw(packet, unsafe { raw::ep_slice_linux_sll_lax(packet.as_ptr(), packet.len()) })
}

/// Slices an IP packet of either version as far as it is there. Refused is one whose IP header isn't whole or breaks its format.
pub fn slice_ip_lax(packet: &[u8]) -> Result<LaxPacket<'_>, Refusal> {
    LaxPacket::from_raw(packet, unsafe { raw::ep_slice_ip_lax(packet.as_ptr(), packet.len()) })
}

/// What the checksum of a message says.
#[derive(Clone, Copy, Debug, PartialEq, Eq, Hash)]
pub enum Verdict {
    /// There is no checksum, or none that is known.
    None,
    /// It is right.
    Good,
    /// It is wrong.
    Bad,
}

impl fmt::Display for Verdict {
    fn fmt(&self, f: &mut fmt::Formatter<'_>) -> fmt::Result {
        f.write_str(match self {
            Verdict::None => "none",
            Verdict::Good => "good",
            Verdict::Bad => "bad",
        })
    }
}

fn verdict(number: u32) -> Option<Verdict> {
    [Verdict::None, Verdict::Good, Verdict::Bad].get(number as usize).copied()
}

/// The verdict on the message in an Ethernet II frame; none where it has no unfragmented message that can
/// be read.
#[must_use]
pub fn verdict_ethernet(frame: &[u8]) -> Option<Verdict> {
    verdict(unsafe { raw::ep_verdict_ethernet(frame.as_ptr(), frame.len()) })
}

/// That in a packet of a Linux cooked capture.
#[must_use]
pub fn verdict_linux_sll(packet: &[u8]) -> Option<Verdict> {
    verdict(unsafe { raw::ep_verdict_linux_sll(packet.as_ptr(), packet.len()) })
}

/// That in an IP packet of either version.
#[must_use]
pub fn verdict_ip(packet: &[u8]) -> Option<Verdict> {
    verdict(unsafe { raw::ep_verdict_ip(packet.as_ptr(), packet.len()) })
}

/// The Internet checksum (RFC 1071), as it stands in a header.
#[must_use]
pub fn checksum(bytes: &[u8]) -> u16 {
    unsafe { raw::ep_checksum(bytes.as_ptr(), bytes.len()) }
}

/// Whether the words of the bytes sum to all ones.
#[must_use]
pub fn checksum_is_right(bytes: &[u8]) -> bool {
    unsafe { raw::ep_checksum_is_right(bytes.as_ptr(), bytes.len()) }
}

/// There was no memory for the answers.
#[derive(Clone, Copy, Debug, PartialEq, Eq)]
pub struct OutOfMemory;

impl fmt::Display for OutOfMemory {
    fn fmt(&self, f: &mut fmt::Formatter<'_>) -> fmt::Result {
        f.write_str("out of memory")
    }
}

impl Error for OutOfMemory {}

/// The answers to all lines of a text, each ended by a line feed.
pub fn answers(text: &[u8]) -> Result<Vec<u8>, OutOfMemory> {
    // SAFETY: the output was written, and nothing overlaps.
    with_output(|output, written| unsafe {
        raw::netlines_answers(text.as_ptr(), text.len(), output.as_mut_ptr(), output.len(), written)
    })
}

/// Lines that come in chunks of any length, and the answers to them as they come. Fed in any chunks,
/// the answers are [`answers`] of the whole. After [`OutOfMemory`] it answers nothing more.
#[derive(Debug)]
pub struct Session {
    raw: raw::NetlinesSession,
}

// SAFETY: what the pointer leads to is on the heap, of one allocator for all threads, and reached by this pointer alone; the
// libraries have no memory of a thread's own (tools/test_exports looks for it). Calls take the session by `&mut`, so none
// begins before the last one has returned.
unsafe impl Send for Session {}

impl Session {
    /// A session that took no byte.
    pub fn open() -> Result<Session, OutOfMemory> {
        let mut session = raw::NetlinesSession { is_open: false, held: std::ptr::null_mut() };
        // SAFETY: it begins as zeros. Here and below these calls alone change it.
        match unsafe { raw::netlines_open(&mut session) } {
            raw::NETLINES_ANSWERED => Ok(Session { raw: session }),
            _ => Err(OutOfMemory),
        }
    }

    /// Takes a chunk, and returns the answers to all lines that ended since the last call.
    pub fn feed(&mut self, chunk: &[u8]) -> Result<Vec<u8>, OutOfMemory> {
        let mut chunk = chunk;
        with_output(|output, written| {
            // SAFETY: the output was written, and nothing overlaps; below, too.
            let status = unsafe {
                raw::netlines_feed(
                    &mut self.raw,
                    chunk.as_ptr(),
                    chunk.len(),
                    output.as_mut_ptr(),
                    output.len(),
                    written,
                )
            };
            chunk = &[];
            status
        })
    }

    /// The answers that are left, with that to a last line that no line feed ended.
    pub fn finish(mut self) -> Result<Vec<u8>, OutOfMemory> {
        with_output(|output, written| unsafe {
            raw::netlines_finish(&mut self.raw, output.as_mut_ptr(), output.len(), written)
        })
    }
}

impl Session {
    /// The answers to these chunks, each when it is fed, and last those that are left.
    pub fn answers<C: AsRef<[u8]>>(
        self,
        chunks: impl IntoIterator<Item = C>,
    ) -> impl Iterator<Item = Result<Vec<u8>, OutOfMemory>> {
        let mut session = Some(self);
        let mut chunks = chunks.into_iter();
        std::iter::from_fn(move || match chunks.next() {
            Some(chunk) => session.as_mut().map(|session| session.feed(chunk.as_ref())),
            None => session.take().map(Session::finish),
        })
    }
}

impl Drop for Session {
    fn drop(&mut self) {
        // SAFETY: as above; what it held is freed here alone.
        unsafe { raw::netlines_close(&mut self.raw) }
    }
}

// Calls again with the room that is needed, where there was too little.
fn with_output(mut call: impl FnMut(&mut [u8], &mut usize) -> u32) -> Result<Vec<u8>, OutOfMemory> {
    let mut output = vec![0; 256];
    loop {
        let mut written = 0;
        match call(&mut output, &mut written) {
            raw::NETLINES_ANSWERED => {
                output.truncate(written);
                return Ok(output);
            }
            raw::NETLINES_NO_ROOM => output.resize(written, 0),
            _ => return Err(OutOfMemory),
        }
    }
}
