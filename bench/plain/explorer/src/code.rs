//! A module as the explorer runs it: each function is a list of instructions whose branches are resolved.
use std::collections::HashMap;

/// Where a branch goes: the next instruction, and how many operands are kept above which height of the frame.
#[derive(Clone, Copy, Default)]
pub struct Target {
    pub next: u32,
    pub keep: u32,
    pub height: u32,
}

/// What an atomic instruction makes of the value that it reads.
#[derive(Clone, Copy, PartialEq, Eq)]
pub enum Update {
    Add,
    Sub,
    And,
    Or,
    Xor,
    Exchange,
}

#[derive(Clone, Copy, PartialEq, Eq)]
pub enum AccessKind {
    Load,
    Store,
    Update(Update),
    CompareExchange,
}

/// An instruction that accesses the memory. A value that is read is extended from `signed` bits, if it is not 0.
#[derive(Clone, Copy, PartialEq, Eq)]
pub struct AccessCode {
    pub kind: AccessKind,
    pub is_atomic: bool,
    pub width: u32,
    pub offset: u32,
    pub signed: u32,
    pub bits: u32,
}

/// An instruction. Numeric ones have the byte of the i32 form and the number of bits.
#[derive(Clone, Copy)]
pub enum Instruction {
    Unreachable,
    Nop,
    Jump(Target),
    JumpIf(Target),
    JumpUnless(u32),
    /// The first of some targets of the function, and how many there are before the default.
    Table(u32, u32),
    Return,
    Call(u32),
    Drop,
    Select,
    Get(u32),
    Set(u32),
    Tee(u32),
    GetGlobal(u32),
    SetGlobal(u32),
    Constant(u64),
    MemorySize,
    Access(AccessCode),
    IsZero,
    Compare(u8, u32),
    Unary(u8, u32),
    Binary(u8, u32),
    Wrap,
    /// Extends a value of some bits to more, with its sign.
    Extend(u32, u32),
}

#[derive(Default)]
pub struct Function {
    pub parameters: usize,
    pub locals: usize,
    pub results: usize,
    pub code: Vec<Instruction>,
    pub targets: Vec<Target>,
}

#[derive(Default)]
pub struct Module {
    pub pages: u64,
    /// The bytes of the data segments that are not 0.
    pub data: HashMap<u32, u8>,
    pub globals: Vec<u64>,
    pub functions: Vec<Function>,
    pub exports: HashMap<String, usize>,
}
