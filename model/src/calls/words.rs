//! The four words of a call and their parts ("Reading a call").

/// "Four words: N:C (N is the high half), P1, P2, P3."
pub struct Words {
    pub nc: u32,
    pub n: u32,
    pub c: u32,
    pub p1: u32,
    pub p2: u32,
    pub p3: u32,
}

impl Words {
    pub fn read([nc, p1, p2, p3]: [u32; 4]) -> Words {
        Words {
            nc,
            n: d1(nc),
            c: d0(nc),
            p1,
            p2,
            p3,
        }
    }

    /// "N[5:0] is the call number."
    pub fn call_number(&self) -> u32 {
        self.n & 0x3F
    }
}

/// "D1 is a word's high half".
pub fn d1(word: u32) -> u32 {
    word >> 16
}

/// "D0 its low half".
pub fn d0(word: u32) -> u32 {
    word & 0xFFFF
}
