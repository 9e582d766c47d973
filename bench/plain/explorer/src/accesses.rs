//! The instructions that access the memory, by their bytes.
use crate::code::{AccessCode, AccessKind, Update};

fn access(kind: AccessKind, is_atomic: bool, width: u32, signed: u32, bits: u32) -> AccessCode {
    AccessCode {
        kind,
        is_atomic,
        width,
        offset: 0,
        signed,
        bits,
    }
}

/// A plain load or store, by its byte.
pub fn plain(byte: u8) -> AccessCode {
    let load = |width, signed, bits| access(AccessKind::Load, false, width, signed, bits);
    match byte {
        0x28 | 0x2a => load(4, 0, 32),
        0x29 | 0x2b => load(8, 0, 64),
        0x2c => load(1, 8, 32),
        0x2d => load(1, 0, 32),
        0x2e => load(2, 16, 32),
        0x2f => load(2, 0, 32),
        0x30 => load(1, 8, 64),
        0x31 => load(1, 0, 64),
        0x32 => load(2, 16, 64),
        0x33 => load(2, 0, 64),
        0x34 => load(4, 32, 64),
        0x35 => load(4, 0, 64),
        _ => {
            let width = [4, 8, 4, 8, 1, 2, 1, 2, 4][usize::from(byte - 0x36)];
            access(AccessKind::Store, false, width, 0, 0)
        }
    }
}

/// An atomic instruction, by its number after the byte 0xfe.
pub fn atomic(code: u32) -> AccessCode {
    const FIRST: u32 = 0x10;
    assert!(
        (FIRST..0x4f).contains(&code),
        "atomic instruction {code:#x}"
    );
    let kind = match (code - FIRST) / 7 {
        0 => AccessKind::Load,
        1 => AccessKind::Store,
        2 => AccessKind::Update(Update::Add),
        3 => AccessKind::Update(Update::Sub),
        4 => AccessKind::Update(Update::And),
        5 => AccessKind::Update(Update::Or),
        6 => AccessKind::Update(Update::Xor),
        7 => AccessKind::Update(Update::Exchange),
        _ => AccessKind::CompareExchange,
    };
    let width = [4, 8, 1, 2, 1, 2, 4][((code - FIRST) % 7) as usize];
    access(kind, true, width, 0, 0)
}
