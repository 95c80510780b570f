//! Hex to bytes, bytes to hex, and ones-complement sums. [`Portable`] is written so that LLVM
//! vectorises it for the processor that the program is built for; [`Avx2`] is the same source for
//! AVX2, chosen at run time.

/// Kernels are a type parameter of `run`, so each choice is compiled on its own.
pub trait Kernel {
    /// Decodes `hex` (even length) into `out` (at least half as long). False if a
    /// character is no hex digit; `out` then holds anything.
    fn decode(hex: &[u8], out: &mut [u8]) -> bool;

    /// Writes the lower case digits of `bytes` to `out` (at least twice as long).
    fn encode(bytes: &[u8], out: &mut [u8]);

    /// A number that is congruent modulo 65535 to the sum of the 16 bit words of
    /// `bytes` in native byte order (an odd last byte followed by zero), and is 0
    /// exactly if that sum is 0.
    fn sum(bytes: &[u8]) -> u64;
}

const fn nibble(c: u8) -> u16 {
    match c {
        b'0'..=b'9' => (c - b'0') as u16,
        b'a'..=b'f' => (c - b'a' + 10) as u16,
        b'A'..=b'F' => (c - b'A' + 10) as u16,
        _ => 0x100,
    }
}

/// Upper and lower nibble of each character, 0x100 set where it is no digit.
static DECODE: [[u16; 256]; 2] = {
    let mut t = [[0u16; 256]; 2];
    let mut c = 0;
    while c < 256 {
        let n = nibble(c as u8);
        t[0][c] = if n < 16 { n << 4 } else { n };
        t[1][c] = n;
        c += 1;
    }
    t
};

static ENCODE: [[u8; 2]; 256] = {
    let digits = b"0123456789abcdef";
    let mut t = [[0u8; 2]; 256];
    let mut i = 0;
    while i < 256 {
        t[i] = [digits[i >> 4], digits[i & 15]];
        i += 1;
    }
    t
};

#[inline(always)]
fn decode_table(hex: &[u8], out: &mut [u8]) -> bool {
    let mut seen = 0u16;
    for (&[hi, lo], o) in hex.as_chunks::<2>().0.iter().zip(out) {
        let v = DECODE[0][hi as usize] | DECODE[1][lo as usize];
        seen |= v;
        *o = v as u8;
    }
    seen < 0x100
}

#[inline(always)]
fn encode_table(bytes: &[u8], out: &mut [u8]) {
    for (b, o) in bytes.iter().zip(out.as_chunks_mut::<2>().0) {
        *o = ENCODE[*b as usize];
    }
}

#[inline(always)]
fn decode_block(hex: &[u8; 32], out: &mut [u8; 16], bad: &mut [u8; 32]) {
    let mut n = [0u8; 32];
    for i in 0..32 {
        let digit = hex[i].wrapping_sub(b'0');
        let letter = (hex[i] | 0x20).wrapping_sub(b'a');
        let is_digit = if digit < 10 { 0xff } else { 0 };
        let is_letter = if letter < 6 { 0xff } else { 0 };
        bad[i] |= !(is_digit | is_letter);
        n[i] = (digit & is_digit) | (letter.wrapping_add(10) & is_letter);
    }
    for i in 0..16 {
        let w = u16::from_le_bytes([n[2 * i], n[2 * i + 1]]);
        out[i] = (w << 4 | w >> 8) as u8;
    }
}

/// Blocks of 32 characters; the last block overlaps the one before.
#[inline(always)]
fn decode_blocks(hex: &[u8], out: &mut [u8]) -> bool {
    let n = hex.len();
    if n < 32 {
        return decode_table(hex, out);
    }
    let out = &mut out[..n / 2];
    let mut bad = [0u8; 32];
    for (h, o) in hex.as_chunks().0.iter().zip(out.as_chunks_mut().0) {
        decode_block(h, o, &mut bad);
    }
    if let (Some(h), Some(o)) = (hex.last_chunk(), out.last_chunk_mut()) {
        decode_block(h, o, &mut bad);
    }
    bad.iter().fold(0, |a, b| a | b) == 0
}

#[inline(always)]
fn encode_block(bytes: &[u8; 32], out: &mut [[u8; 2]; 32]) {
    for i in 0..32 {
        let b = u16::from(bytes[i]);
        let w = (b >> 4 | b << 8) & 0x0f0f;
        // 39 more where a nibble is above 9
        let ascii = w + 0x3030 + ((w + 0x0606) >> 4 & 0x0101) * 39;
        out[i] = ascii.to_le_bytes();
    }
}

#[inline(always)]
fn encode_blocks(bytes: &[u8], out: &mut [u8]) {
    let n = bytes.len();
    if n < 32 {
        return encode_table(bytes, out);
    }
    let out = &mut out.as_chunks_mut::<2>().0[..n];
    for (b, o) in bytes.as_chunks().0.iter().zip(out.as_chunks_mut().0) {
        encode_block(b, o);
    }
    if let (Some(b), Some(o)) = (bytes.last_chunk(), out.last_chunk_mut()) {
        encode_block(b, o);
    }
}

/// `LANES` sums of 32 bit words in 64 bits each: no lane can wrap below 2^34 bytes.
#[inline(always)]
fn sum_lanes<const LANES: usize>(bytes: &[u8]) -> u64 {
    let mut acc = [0u64; LANES];
    let (words, tail) = bytes.as_chunks::<4>();
    let (blocks, rest) = words.as_chunks::<LANES>();
    for block in blocks {
        for i in 0..LANES {
            acc[i] += u64::from(u32::from_ne_bytes(block[i]));
        }
    }
    let mut sum: u64 = acc.iter().sum();
    for word in rest {
        sum += u64::from(u32::from_ne_bytes(*word));
    }
    let mut last = [0u8; 4];
    last[..tail.len()].copy_from_slice(tail);
    sum + u64::from(u32::from_ne_bytes(last))
}

/// Auto-vectorised for the target that the crate is built for.
pub struct Portable;

impl Kernel for Portable {
    fn decode(hex: &[u8], out: &mut [u8]) -> bool {
        decode_blocks(hex, out)
    }
    fn encode(bytes: &[u8], out: &mut [u8]) {
        encode_blocks(bytes, out)
    }
    fn sum(bytes: &[u8]) -> u64 {
        sum_lanes::<16>(bytes)
    }
}

/// [`Portable`]'s source, compiled for AVX2. Made only by [`Avx2::detect`].
#[cfg(target_arch = "x86_64")]
pub struct Avx2(());

#[cfg(target_arch = "x86_64")]
impl Avx2 {
    pub fn detect() -> Option<Avx2> {
        std::arch::is_x86_feature_detected!("avx2").then_some(Avx2(()))
    }
}

#[cfg(target_arch = "x86_64")]
mod avx2 {
    #[target_feature(enable = "avx2")]
    pub fn decode(hex: &[u8], out: &mut [u8]) -> bool {
        super::decode_blocks(hex, out)
    }
    #[target_feature(enable = "avx2")]
    pub fn encode(bytes: &[u8], out: &mut [u8]) {
        super::encode_blocks(bytes, out)
    }
    #[target_feature(enable = "avx2")]
    pub fn sum(bytes: &[u8]) -> u64 {
        super::sum_lanes::<16>(bytes)
    }
}

#[cfg(target_arch = "x86_64")]
impl Kernel for Avx2 {
    // SAFETY (all three): `run` names this type only after `detect` found the feature.
    fn decode(hex: &[u8], out: &mut [u8]) -> bool {
        unsafe { avx2::decode(hex, out) }
    }
    fn encode(bytes: &[u8], out: &mut [u8]) {
        unsafe { avx2::encode(bytes, out) }
    }
    fn sum(bytes: &[u8]) -> u64 {
        unsafe { avx2::sum(bytes) }
    }
}
