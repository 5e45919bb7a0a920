//! The kinds of capability and their flags ("Flags, bit 0 first").

use crate::layout::tag;

pub const BLANK: u32 = 0;
pub const TABLE: u32 = 1;
pub const DIRECTORY: u32 = 2;
pub const MEMORY: u32 = 3;
pub const PROCESS: u32 = 4;
pub const ENDPOINT: u32 = 5;
pub const FUNCTION: u32 = 6;

/// "Table: CRT, DEL, FRZ, ADD_SRC, ADD_DST, REM, PROC_CRT, PROC_CPT".
pub mod table {
    pub const CRT: u32 = 1;
    pub const DEL: u32 = 1 << 1;
    pub const FRZ: u32 = 1 << 2;
    pub const ADD_SRC: u32 = 1 << 3;
    pub const ADD_DST: u32 = 1 << 4;
    pub const REM: u32 = 1 << 5;
    pub const PROC_CRT: u32 = 1 << 6;
    pub const PROC_CPT: u32 = 1 << 7;
}

/// "ADD_SRC, ADD_DST, REM, CON_CHILD, CON_PARENT, DES, PROC_CRT, PROC_PGT".
pub mod directory {
    pub const ADD_SRC: u32 = 1;
    pub const ADD_DST: u32 = 1 << 1;
    pub const REM: u32 = 1 << 2;
    pub const CON_CHILD: u32 = 1 << 3;
    pub const CON_PARENT: u32 = 1 << 4;
    pub const DES: u32 = 1 << 5;
    pub const PROC_CRT: u32 = 1 << 6;
    pub const PROC_PGT: u32 = 1 << 7;
}

/// "Memory (M): CAPTBL, PGTBL, PROC, THD, SIG, INV".
pub mod memory {
    pub const CAPTBL: u32 = 1;
    pub const PGTBL: u32 = 1 << 1;
    pub const PROC: u32 = 1 << 2;
    pub const SIG: u32 = 1 << 4;
}

/// "Process: CPT, PGT, THD".
pub mod process {
    pub const CPT: u32 = 1;
    pub const PGT: u32 = 1 << 1;
}

/// "Endpoint (M): SND, RCV_BS, RCV_BM, RCV_NS, RCV_NM, SCHED".
pub mod endpoint {
    pub const SND: u32 = 1;
    pub const RCV_NS: u32 = 1 << 3;
    pub const RCV_NM: u32 = 1 << 4;
}

/// "Page: READ, WRITE, EXECUTE, CACHEABLE, BUFFERABLE, STATIC".
pub const PAGE_FLAGS: u32 = 0x3F;

/// "every flag of its kind"; a function has none.
pub fn all_flags(kind: u32) -> u32 {
    match kind {
        TABLE | DIRECTORY => 0xFF,
        MEMORY | ENDPOINT => 0x3F,
        PROCESS => 7,
        _ => 0,
    }
}

/// The tag of the object that a right of this kind names; memory and function name none.
pub fn object_tag(kind: u32) -> Option<u8> {
    match kind {
        TABLE => Some(tag::TABLE),
        DIRECTORY => Some(tag::DIRECTORY),
        PROCESS => Some(tag::PROCESS),
        ENDPOINT => Some(tag::ENDPOINT),
        _ => None,
    }
}
