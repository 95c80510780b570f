//! The line grammar.

/// The longest line that is read, without its 0a.
pub const MAX_LINE: usize = 200_000;

/// One line, its hex digits not yet decoded.
#[derive(Debug, PartialEq, Eq)]
pub enum Command<'a> {
    /// `hex` has an even length of at least 2; its characters are not tested yet.
    Frame {
        channel: u32,
        hex: &'a [u8],
    },
    Forget(u64),
    Bad,
}

impl<'a> Command<'a> {
    #[inline]
    pub fn parse(line: &'a [u8]) -> Command<'a> {
        if line.len() > MAX_LINE {
            return Command::Bad;
        }
        if let Some(rest) = line.strip_prefix(b"frame ") {
            let (channel, digits) = number(rest, 10);
            if let (Some(channel), Some((b' ', hex))) = (channel, rest[digits..].split_first())
                && let Ok(channel) = u32::try_from(channel)
                && !hex.is_empty()
                && hex.len().is_multiple_of(2)
            {
                return Command::Frame { channel, hex };
            }
        } else if let Some(rest) = line.strip_prefix(b"forget ")
            && let (Some(k), digits) = number(rest, 20)
            && digits == rest.len()
        {
            return Command::Forget(k);
        }
        Command::Bad
    }
}

/// The number at the start of `text` and the count of its digits; None without a
/// digit, with more than `max` digits, or above 2^64 - 1.
#[inline]
fn number(text: &[u8], max: usize) -> (Option<u64>, usize) {
    let mut value = Some(0u64);
    let mut digits = 0;
    while let Some(c) = text.get(digits)
        && c.is_ascii_digit()
    {
        value = value
            .and_then(|v| v.checked_mul(10))
            .and_then(|v| v.checked_add(u64::from(c - b'0')));
        digits += 1;
        if digits > max {
            return (None, digits);
        }
    }
    (value.filter(|_| digits > 0), digits)
}

/// Place of the first 0a.
#[inline]
pub fn find_newline(text: &[u8]) -> Option<usize> {
    const LOW: u64 = 0x0101_0101_0101_0101;
    let (blocks, tail) = text.as_chunks::<32>();
    for (i, block) in blocks.iter().enumerate() {
        // one vectorised test for a block, then the word within it
        if block.iter().fold(false, |hit, &c| hit | (c == b'\n')) {
            for (j, word) in block.as_chunks::<8>().0.iter().enumerate() {
                let x = u64::from_le_bytes(*word) ^ (LOW * u64::from(b'\n'));
                let zero = x.wrapping_sub(LOW) & !x & (LOW << 7);
                if zero != 0 {
                    return Some(i * 32 + j * 8 + zero.trailing_zeros() as usize / 8);
                }
            }
        }
    }
    let at = text.len() - tail.len();
    tail.iter().position(|&c| c == b'\n').map(|p| p + at)
}
