//! Packets of capture files, pcap and pcapng, and captures written.

use crate::raw::{self, EpCapture, EpCaptureError, EpCapturedPacket};
use crate::OutOfMemory;
use std::error::Error;
use std::fmt;
use std::io::{self, ErrorKind, Read, Write};

// Space for the longest packet, and the longest block that is read of a pcapng file.
const ROOM: usize = 262_144;

// The longest frame that is read again.
const GREATEST_FRAME: usize = 99_991;

/// The kind of link that a packet was captured on.
#[derive(Clone, Copy, Debug, PartialEq, Eq, Hash)]
pub enum CaptureLink {
    /// Ethernet.
    Ethernet,
    /// None: the packet is one of IP.
    Ip,
    /// BSD loopback.
    BsdLoopback,
    /// OpenBSD loopback.
    OpenBsdLoopback,
    /// A Linux cooked capture.
    LinuxSll,
    /// A Linux cooked capture of version 2.
    LinuxSll2,
}

impl CaptureLink {
    fn of(number: u32) -> CaptureLink {
        match number {
            1 => CaptureLink::Ethernet,
            2 => CaptureLink::Ip,
            3 => CaptureLink::BsdLoopback,
            4 => CaptureLink::OpenBsdLoopback,
            5 => CaptureLink::LinuxSll,
            _ => CaptureLink::LinuxSll2,
        }
    }
}

/// A packet of a capture.
#[derive(Clone, Debug, PartialEq, Eq)]
pub struct CapturedPacket {
    /// Its number in the capture, from 1, those included that aren't given.
    pub number: u64,
    /// When it was captured, in nanoseconds since the year 1970 began; 0 where the capture doesn't say.
    pub time: u64,
    /// How many bytes it had on the wire, as the capture says.
    pub wire_len: u32,
    /// The kind of link that it was captured on.
    pub link: CaptureLink,
    /// The number of its interface, from 0, over all sections of a pcapng file.
    pub interface: u32,
    /// Its Ethernet II frame: its own where `link` is Ethernet, else a header from the sender's address, to no address, and
    /// what follows its link's own header.
    pub bytes: Vec<u8>,
}

/// Why a capture isn't read on.
#[derive(Clone, Copy, Debug, PartialEq, Eq, Hash)]
pub enum CaptureFault {
    /// The bytes don't begin with the header of a capture.
    NotCapture,
    /// A packet was captured on a link of this type, which isn't read.
    LinkType(u16),
    /// After the 32nd interface of a section only Ethernet is read, not this link type.
    InterfaceLimit(u16),
    /// A packet of so many captured bytes is too long.
    FrameTooLong(u32),
    /// A packet has no Ethernet frame.
    NoFrame,
    /// The capture ends within a packet or block.
    CutOff,
    /// A block of so many bytes is too long.
    BlockTooLong(u32),
    /// This major and minor version of pcapng isn't read.
    Version(u16, u16),
    /// A block isn't well made.
    BadBlock,
}

impl fmt::Display for CaptureFault {
    fn fmt(&self, f: &mut fmt::Formatter<'_>) -> fmt::Result {
        match self {
            CaptureFault::NotCapture => f.write_str("no capture file"),
            CaptureFault::LinkType(number) => write!(f, "link type {number} is not read"),
            CaptureFault::InterfaceLimit(number) => {
                write!(f, "interfaces after the 32nd of a section are read with link type 1 alone, not {number}")
            }
            CaptureFault::FrameTooLong(len) => write!(f, "a packet of {len} bytes is too long"),
            CaptureFault::NoFrame => f.write_str("a packet has no ether type"),
            CaptureFault::CutOff => f.write_str("the capture ends within a packet"),
            CaptureFault::BlockTooLong(len) => write!(f, "a block of {len} bytes is too long"),
            CaptureFault::Version(major, minor) => write!(f, "version {major}.{minor} of pcapng is not read"),
            CaptureFault::BadBlock => f.write_str("a block is not well made"),
        }
    }
}

/// Why a capture gives no further packet.
#[derive(Debug)]
pub enum CaptureError {
    /// The file can't be read.
    Read(io::Error),
    /// The capture is refused.
    Refused {
        /// Why.
        fault: CaptureFault,
        /// The number in the capture of the packet there, or of the first one after it.
        packet: u64,
        /// How many bytes come before the file header, packet record or block there.
        offset: u64,
        /// The type of the block there, where it is known.
        block_type: Option<u32>,
    },
}

impl fmt::Display for CaptureError {
    fn fmt(&self, f: &mut fmt::Formatter<'_>) -> fmt::Result {
        match self {
            CaptureError::Read(error) => error.fmt(f),
            CaptureError::Refused { fault, packet, offset, block_type } => {
                write!(f, "packet {packet}, byte {offset}")?;
                if let Some(block_type) = block_type {
                    write!(f, ", block type {block_type:#x}")?;
                }
                write!(f, ": {fault}")
            }
        }
    }
}

impl Error for CaptureError {
    fn source(&self) -> Option<&(dyn Error + 'static)> {
        match self {
            CaptureError::Read(error) => Some(error),
            CaptureError::Refused { .. } => None,
        }
    }
}

impl CaptureError {
    fn refused(raw: &EpCaptureError) -> CaptureError {
        let (value, half) = (raw.value, raw.value as u16);
        let fault = match raw.kind {
            1 => CaptureFault::NotCapture,
            2 => CaptureFault::LinkType(half),
            3 => CaptureFault::InterfaceLimit(half),
            4 => CaptureFault::FrameTooLong(value),
            5 => CaptureFault::NoFrame,
            6 => CaptureFault::CutOff,
            7 => CaptureFault::BlockTooLong(value),
            8 => CaptureFault::Version(half, raw.minor as u16),
            _ => CaptureFault::BadBlock,
        };
        CaptureError::Refused {
            fault,
            packet: raw.packet,
            offset: raw.offset,
            block_type: Some(raw.block_type).filter(|&block_type| block_type > 0),
        }
    }
}

/// An iterator over the packets of a capture file, pcap or pcapng, that a reader gives. It holds 262,144 bytes of it.
///
/// A packet that has no Ethernet frame, or is too long, is an error or, by [`Capture::skipping`], passed over. After an error
/// there is no further packet.
#[derive(Debug)]
pub struct Capture<R> {
    raw: EpCapture,
    reader: R,
    room: Vec<u8>,
    start: usize,
    end: usize,
    is_done: bool,
}

// SAFETY: as of a `Session`.
unsafe impl<R: Send> Send for Capture<R> {}

impl<R: Read> Capture<R> {
    /// The packets of a capture that this reader gives from its first byte on.
    pub fn new(reader: R) -> Result<Capture<R>, OutOfMemory> {
        Capture::opened(reader, false)
    }

    /// The same, but packets that have no Ethernet frame or are too long are passed over.
    pub fn skipping(reader: R) -> Result<Capture<R>, OutOfMemory> {
        Capture::opened(reader, true)
    }

    fn opened(reader: R, skips: bool) -> Result<Capture<R>, OutOfMemory> {
        let mut raw = EpCapture { is_open: false, held: std::ptr::null_mut() };
        // SAFETY: it begins as zeros. Here and below these calls alone change it.
        match unsafe { raw::ep_capture_new(&mut raw, skips) } {
            raw::DONE => Ok(Capture { raw, reader, room: vec![0; ROOM], start: 0, end: 0, is_done: false }),
            _ => Err(OutOfMemory),
        }
    }

    fn packet(&self, raw: &EpCapturedPacket, start: usize) -> CapturedPacket {
        let from = start + raw.bytes.offset;
        let mut bytes = raw.header[..raw.header_len as usize].to_vec();
        bytes.extend_from_slice(&self.room[from..from + raw.bytes.len]);
        CapturedPacket {
            number: raw.number,
            time: raw.time,
            wire_len: raw.wire_len,
            link: CaptureLink::of(raw.link),
            interface: raw.interface_number,
            bytes,
        }
    }

    // Reads on, and returns whether bytes came.
    fn fill(&mut self) -> io::Result<bool> {
        self.room.copy_within(self.start..self.end, 0);
        self.end -= self.start;
        self.start = 0;
        loop {
            match self.reader.read(&mut self.room[self.end..]) {
                Ok(count) => {
                    self.end += count;
                    return Ok(count > 0);
                }
                Err(error) if error.kind() == ErrorKind::Interrupted => {}
                Err(error) => return Err(error),
            }
        }
    }

    fn advance(&mut self) -> Result<Option<CapturedPacket>, CaptureError> {
        loop {
            let start = self.start;
            let left = &self.room[start..self.end];
            // SAFETY: pointer and length are one slice's, and nothing overlaps; below, too.
            let found = unsafe { raw::ep_capture_next(&mut self.raw, left.as_ptr(), left.len()) };
            if found.status == raw::REFUSED {
                return Err(CaptureError::refused(&found.error));
            }
            self.start += found.done;
            if found.status == raw::DONE {
                return Ok(Some(self.packet(&found.packet, start)));
            }
            if !self.fill().map_err(CaptureError::Read)? {
                break;
            }
        }
        let left = &self.room[self.start..self.end];
        let ended = unsafe { raw::ep_capture_end(&mut self.raw, left.as_ptr(), left.len()) };
        if ended.status == raw::REFUSED {
            return Err(CaptureError::refused(&ended.error));
        }
        Ok(None)
    }
}

impl<R: Read> Iterator for Capture<R> {
    type Item = Result<CapturedPacket, CaptureError>;

    fn next(&mut self) -> Option<Self::Item> {
        if self.is_done {
            return None;
        }
        let next = self.advance().transpose();
        self.is_done = !matches!(next, Some(Ok(_)));
        next
    }
}

impl<R> Drop for Capture<R> {
    fn drop(&mut self) {
        // SAFETY: as above; what it held is freed here alone.
        unsafe { raw::ep_capture_free(&mut self.raw) }
    }
}

/// Writes a pcap file of Ethernet frames.
#[derive(Debug)]
pub struct CaptureWriter<W> {
    writer: W,
    has_nanoseconds: bool,
}

impl<W: Write> CaptureWriter<W> {
    /// A file with times in microseconds. Its header is written.
    pub fn new(writer: W) -> io::Result<CaptureWriter<W>> {
        CaptureWriter::started(writer, false)
    }

    /// A file with times in nanoseconds.
    pub fn with_nanoseconds(writer: W) -> io::Result<CaptureWriter<W>> {
        CaptureWriter::started(writer, true)
    }

    fn started(mut writer: W, has_nanoseconds: bool) -> io::Result<CaptureWriter<W>> {
        // SAFETY: it takes a number and returns bytes; below, too.
        let header = unsafe { raw::ep_capture_file_header(has_nanoseconds) };
        writer.write_all(&header.bytes)?;
        Ok(CaptureWriter { writer, has_nanoseconds })
    }

    /// Writes a frame, which came at this time, in nanoseconds since the year 1970 began, and had so many bytes on the wire; as
    /// many as it has, where that is less.
    ///
    /// # Errors
    ///
    /// Where it can't be written, has more than 99,991 bytes, which isn't read either, or the seconds or the length on the wire
    /// don't fit 32 bits.
    pub fn write(&mut self, time: u64, frame: &[u8], wire_len: usize) -> io::Result<()> {
        if frame.len() > GREATEST_FRAME {
            return Err(ErrorKind::InvalidInput.into());
        }
        let number = |count: u64| u32::try_from(count).map_err(|_| io::Error::from(ErrorKind::InvalidInput));
        let seconds = number(time / 1_000_000_000)?;
        let nanoseconds = (time % 1_000_000_000) as u32;
        let fraction = if self.has_nanoseconds { nanoseconds } else { nanoseconds / 1000 };
        let wire_len = number(wire_len.max(frame.len()) as u64)?;
        let head = unsafe { raw::ep_capture_record_head(seconds, fraction, frame.len() as u32, wire_len) };
        self.writer.write_all(&head.bytes)?;
        self.writer.write_all(frame)
    }

    /// What it writes to.
    pub fn into_inner(self) -> W {
        self.writer
    }
}
