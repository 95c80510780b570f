//! The loop from reader to writer.

use crate::defrag::{IpDefragError, IpDefragPool};
use crate::judge::{Message, Verdict};
#[cfg(target_arch = "x86_64")]
use crate::kernel::Avx2;
use crate::kernel::{Kernel, Portable};
use crate::line::{Command, MAX_LINE, find_newline};
use crate::sliced::{Addresses, NetSlice, SlicedPacket};
use std::io::{Read, Write};

/// Bytes requested in one read.
pub const READ_SIZE: usize = 65536;
/// Reads until `run` gives up.
pub const MAX_READS: u64 = 1 << 40;
/// The longest line decodes to fewer bytes.
const FRAME_SIZE: usize = 100_000;
/// Answers are handed to the writer when this many bytes wait.
const WRITE_SIZE: usize = 65536;
/// Room for the longest answer line after `WRITE_SIZE` bytes.
const ANSWER_SIZE: usize = 2 * FRAME_SIZE + 64;

#[derive(Debug)]
pub enum RunError {
    Read,
    Write,
    TooManyReads,
}

/// Answers all lines of `reader` on `writer`, over an empty pool. Answers to what was read are
/// written before the next read, and before an error of the reader is answered.
pub fn run(
    pool: &mut IpDefragPool,
    reader: &mut impl Read,
    writer: &mut impl Write,
) -> Result<(), RunError> {
    #[cfg(target_arch = "x86_64")]
    if Avx2::detect().is_some() {
        return run_kernel::<Avx2>(pool, reader, writer);
    }
    run_kernel::<Portable>(pool, reader, writer)
}

fn run_kernel<K: Kernel>(
    pool: &mut IpDefragPool,
    reader: &mut impl Read,
    writer: &mut impl Write,
) -> Result<(), RunError> {
    let mut session = Session {
        out: Answers {
            writer,
            buf: vec![0; WRITE_SIZE + ANSWER_SIZE].into(),
            len: 0,
        },
        frame: vec![0; FRAME_SIZE].into(),
        pool,
        line: 0,
    };
    let mut buf = vec![0u8; MAX_LINE + 1 + READ_SIZE];
    // buf[start..end] is the part read of the current line, searched up to `end`
    let (mut start, mut end) = (0, 0);
    // the current line is too long, its bytes are dropped
    let mut too_long = false;
    for _ in 0..MAX_READS {
        session.out.flush().map_err(|_| RunError::Write)?;
        if start > 0 {
            buf.copy_within(start..end, 0);
            end -= start;
            start = 0;
        }
        let count = reader
            .read(&mut buf[end..end + READ_SIZE])
            .map_err(|_| RunError::Read)?;
        if count == 0 {
            if too_long {
                session.bad_line().map_err(|_| RunError::Write)?;
            } else if start < end {
                session
                    .answer::<K>(&buf[start..end])
                    .map_err(|_| RunError::Write)?;
            }
            return session.out.flush().map_err(|_| RunError::Write);
        }
        let mut searched = end;
        end += count;
        while let Some(at) = find_newline(&buf[searched..end]) {
            let line = &buf[start..searched + at];
            start = searched + at + 1;
            searched = start;
            if std::mem::take(&mut too_long) {
                session.bad_line()
            } else {
                session.answer::<K>(line)
            }
            .map_err(|_| RunError::Write)?;
        }
        if too_long || end - start > MAX_LINE {
            too_long = true;
            start = end;
        }
    }
    session.out.flush().map_err(|_| RunError::Write)?;
    Err(RunError::TooManyReads)
}

struct Session<'a, W> {
    out: Answers<'a, W>,
    frame: Box<[u8]>,
    pool: &'a mut IpDefragPool,
    line: u64,
}

impl<W: Write> Session<'_, W> {
    fn bad_line(&mut self) -> std::io::Result<()> {
        self.line += 1;
        self.out.text(b"bad line\n")
    }

    fn answer<K: Kernel>(&mut self, line: &[u8]) -> std::io::Result<()> {
        self.line += 1;
        let (channel, frame) = match Command::parse(line) {
            Command::Frame { channel, hex } => {
                let frame = &mut self.frame[..hex.len() / 2];
                if !K::decode(hex, frame) {
                    return self.out.text(b"bad line\n");
                }
                (channel, &*frame)
            }
            Command::Forget(first) => {
                self.pool.retain_from(first);
                return self.out.text(b"ok\n");
            }
            Command::Bad => return self.out.text(b"bad line\n"),
        };
        let Ok(packet) = SlicedPacket::from_ethernet(frame) else {
            return self.out.text(b"refused frame\n");
        };
        let ip = match &packet.net {
            Some(NetSlice::Ip(ip)) if !ip.later_fragment => ip,
            _ => return self.out.text(b"other\n"),
        };
        let Some(info) = &ip.fragment else {
            return self
                .out
                .message::<K>(ip.addresses, ip.number, ip.payload, b"refused frame\n");
        };
        match self
            .pool
            .process(packet.vlan_ids, ip, info, channel, self.line)
        {
            Ok(None) => self.out.text(b"wait\n"),
            Ok(Some(whole)) => {
                self.out
                    .message::<K>(ip.addresses, ip.number, whole, b"refused message\n")
            }
            Err(err) => self.out.text(match err {
                IpDefragError::SegmentTooBig => b"refused long\n",
                IpDefragError::UnalignedFragmentPayloadLen => b"refused unaligned\n",
                IpDefragError::ConflictingEnd => b"refused end\n",
                IpDefragError::OverlappingFragment => b"refused overlap\n",
            }),
        }
    }
}

/// A buffered writer that hex is encoded into without a copy in between.
struct Answers<'w, W> {
    writer: &'w mut W,
    buf: Box<[u8]>,
    len: usize,
}

impl<W: Write> Answers<'_, W> {
    fn flush(&mut self) -> std::io::Result<()> {
        let len = std::mem::take(&mut self.len);
        self.writer.write_all(&self.buf[..len])
    }

    #[inline]
    fn put(&mut self, text: &[u8]) {
        self.buf[self.len..self.len + text.len()].copy_from_slice(text);
        self.len += text.len();
    }

    /// The same for a text of known length, which compiles to a few stores.
    #[inline]
    fn put_const<const N: usize>(&mut self, text: &[u8; N]) {
        self.put(text);
    }

    #[inline]
    fn text(&mut self, text: &[u8]) -> std::io::Result<()> {
        self.put(text);
        self.flush_full()
    }

    #[inline]
    fn flush_full(&mut self) -> std::io::Result<()> {
        if self.len >= WRITE_SIZE {
            self.flush()
        } else {
            Ok(())
        }
    }

    /// The message's line, or `refused` where it isn't readable.
    #[inline]
    fn message<K: Kernel>(
        &mut self,
        addresses: Addresses<'_>,
        number: u8,
        bytes: &[u8],
        refused: &[u8],
    ) -> std::io::Result<()> {
        let Ok(message) = Message::read(number, bytes) else {
            return self.text(refused);
        };
        self.put_const(b"message ");
        let digits = [number / 100, number / 10 % 10, number % 10].map(|d| d + b'0');
        if number < 10 {
            self.put_const(&[digits[2]]);
        } else if number < 100 {
            self.put_const(&[digits[1], digits[2]]);
        } else {
            self.put_const(&[digits[0], digits[1], digits[2]]);
        }
        match message.judge::<K>(addresses) {
            Verdict::Good => self.put_const(b" good "),
            Verdict::Bad => self.put_const(b" bad "),
            Verdict::None => self.put_const(b" none "),
        }
        if bytes.is_empty() {
            self.put_const(b"-");
        } else {
            let hex = &mut self.buf[self.len..self.len + 2 * bytes.len()];
            K::encode(bytes, hex);
            self.len += 2 * bytes.len();
        }
        self.put_const(b"\n");
        self.flush_full()
    }
}
