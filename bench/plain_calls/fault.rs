//! Why bytes are refused.

/// A refusal, with what a caller may need to know of it.
#[allow(dead_code)]
pub enum Fault {
    /// So many bytes are needed, and so many are there, from this place on.
    Short {
        needed: usize,
        found: usize,
        at: usize,
    },
    Version(u8),
    HeaderWords(u8),
    Length(usize),
    EmptyAuthentication,
    HopByHopNotAtStart,
}

impl Fault {
    /// The same fault of bytes that start so much further on.
    pub fn moved(self, offset: usize) -> Fault {
        match self {
            Fault::Short { needed, found, at } => Fault::Short {
                needed,
                found,
                at: at + offset,
            },
            content => content,
        }
    }
}

/// Whether so many bytes are there.
pub fn need(needed: usize, bytes: &[u8], at: usize) -> Result<(), Fault> {
    let found = bytes.len();
    if found < needed {
        return Err(Fault::Short { needed, found, at });
    }
    Ok(())
}
