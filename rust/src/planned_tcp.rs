//! A TCP header of a plan. Written by `tools/bindings`.

use crate::raw::EpPlan;

/// A TCP header of a plan.
#[derive(Clone, Debug, Default, PartialEq, Eq)]
pub struct PlannedTcp {
    /// The source port.
    pub source_port: u16,
    /// The destination port.
    pub destination_port: u16,
    /// The sequence number.
    pub sequence_number: u32,
    /// The acknowledgment number.
    pub acknowledgment_number: u32,
    /// The window.
    pub window_size: u16,
    /// The urgent pointer.
    pub urgent_pointer: u16,
    /// Flag NS: ECN nonce (RFC 3540).
    pub ns: bool,
    /// Flag FIN: no more data.
    pub fin: bool,
    /// Flag SYN: sequence numbers are synchronized.
    pub syn: bool,
    /// Flag RST: the connection is reset.
    pub rst: bool,
    /// Flag PSH: push.
    pub psh: bool,
    /// Flag ACK: the acknowledgment number counts.
    pub ack: bool,
    /// Flag URG: the urgent pointer counts.
    pub urg: bool,
    /// Flag ECE: ECN echo.
    pub ece: bool,
    /// Flag CWR: congestion window reduced.
    pub cwr: bool,
    /// At most 40 bytes. They are filled up with 0 to whole words.
    pub options: Vec<u8>,
}

impl PlannedTcp {
    pub(crate) fn put(&self, raw: &mut EpPlan) {
        *raw = EpPlan {
            transport: 6,
            source_port: self.source_port,
            destination_port: self.destination_port,
            sequence_number: self.sequence_number,
            acknowledgment_number: self.acknowledgment_number,
            window_size: self.window_size,
            urgent_pointer: self.urgent_pointer,
            ns: self.ns,
            fin: self.fin,
            syn: self.syn,
            rst: self.rst,
            psh: self.psh,
            ack: self.ack,
            urg: self.urg,
            ece: self.ece,
            cwr: self.cwr,
            options_len: self.options.len(),
            ..*raw
        };
        let len = self.options.len().min(raw.options.len());
        raw.options[..len].copy_from_slice(&self.options[..len]);
    }
}
