//! Numbers that look random and are the same in each run.

pub struct Random(u64);

impl Random {
    pub fn new() -> Random {
        Random(0x9e37_79b9_7f4a_7c15)
    }

    pub fn byte(&mut self) -> u8 {
        let next = self.0.wrapping_mul(6_364_136_223_846_793_005);
        self.0 = next.wrapping_add(1_442_695_040_888_963_407);
        self.0.to_be_bytes()[0]
    }

    pub fn below(&mut self, bound: u8) -> u8 {
        self.byte() % bound
    }

    pub fn append(&mut self, count: usize, bytes: &mut Vec<u8>) {
        bytes.extend((0..count).map(|_| self.byte()));
    }
}
