//! Reads the body of a function, and resolves its branches.
use crate::accesses::{atomic, plain};
use crate::bytes::Bytes;
use crate::code::{AccessCode, AccessKind, Function, Instruction, Target};
use crate::decode::Signature;

/// A branch whose target is not known yet: an instruction, or one of the targets of a table.
enum Open {
    Code(usize),
    Table(usize),
}

/// A block that is open. A branch to a loop leads to its start, else behind its end.
struct Block {
    start: Option<u32>,
    height: u32,
    results: u32,
    open: Vec<Open>,
    /// The test of an `if` whose `else` or end has not come.
    test: Option<usize>,
}

pub struct Body<'m> {
    bytes: Bytes<'m>,
    of: &'m [Signature],
    function: Function,
    blocks: Vec<Block>,
    /// How many values the frame has: its locals and operands. Behind a branch it means nothing until the block's end.
    height: u32,
}

impl<'m> Body<'m> {
    pub fn new(bytes: &'m [u8], of: &'m [Signature]) -> Self {
        let (bytes, function, blocks) = (Bytes::new(bytes), Function::default(), Vec::new());
        Body {
            bytes,
            of,
            function,
            blocks,
            height: 0,
        }
    }

    pub fn function(mut self, signature: Signature) -> Function {
        self.function.parameters = signature.parameters;
        self.function.results = signature.results;
        for _ in 0..self.bytes.number() {
            self.function.locals += self.bytes.number() as usize;
            self.bytes.byte();
        }
        self.height = (signature.parameters + self.function.locals) as u32;
        self.open_block(None, signature.results as u32);
        while !self.blocks.is_empty() {
            self.instruction();
        }
        self.function.code.push(Instruction::Return);
        self.function
    }

    fn open_block(&mut self, start: Option<u32>, results: u32) {
        let (height, open, test) = (self.height, Vec::new(), None);
        self.blocks.push(Block {
            start,
            height,
            results,
            open,
            test,
        });
    }

    fn here(&self) -> u32 {
        self.function.code.len() as u32
    }

    fn results(&mut self) -> u32 {
        match self.bytes.byte() {
            0x40 => 0,
            0x7c..=0x7f => 1,
            byte => panic!("block type {byte:#x}"),
        }
    }

    /// Adds an instruction that takes some operands and leaves others.
    fn add(&mut self, instruction: Instruction, takes: u32, leaves: u32) {
        self.function.code.push(instruction);
        self.height = self.height.saturating_sub(takes) + leaves;
    }

    /// The target of a branch to the block at a depth, which is noted there if it isn't known.
    fn target(&mut self, depth: u32, open: Open) -> Target {
        let index = self.blocks.len() - 1 - depth as usize;
        let block = &mut self.blocks[index];
        match block.start {
            Some(next) => Target {
                next,
                keep: 0,
                height: block.height,
            },
            None => {
                block.open.push(open);
                Target {
                    next: 0,
                    keep: block.results,
                    height: block.height,
                }
            }
        }
    }

    fn branch(&mut self, depth: u32) -> Target {
        self.target(depth, Open::Code(self.function.code.len()))
    }

    fn table(&mut self) {
        let first = self.function.targets.len();
        let count = self.bytes.number();
        for index in 0..=count as usize {
            let depth = self.bytes.number();
            let target = self.target(depth, Open::Table(first + index));
            self.function.targets.push(target);
        }
        self.add(Instruction::Table(first as u32, count), 1, 0);
    }

    fn lead_here(&mut self, open: &Open) {
        let here = self.here();
        match *open {
            Open::Table(index) => self.function.targets[index].next = here,
            Open::Code(index) => match &mut self.function.code[index] {
                Instruction::Jump(target) | Instruction::JumpIf(target) => target.next = here,
                Instruction::JumpUnless(next) => *next = here,
                _ => unreachable!("only branches are open"),
            },
        }
    }

    fn start_else(&mut self) {
        let target = self.branch(0);
        self.function.code.push(Instruction::Jump(target));
        let block = self.blocks.last_mut().expect("an if");
        self.height = block.height;
        let test = block.test.take().expect("the test of an if");
        self.lead_here(&Open::Code(test));
    }

    fn end(&mut self) {
        let block = self.blocks.pop().expect("a block");
        for open in block.open.iter().chain(block.test.map(Open::Code).iter()) {
            self.lead_here(open);
        }
        self.height = block.height + block.results;
    }

    fn start_if(&mut self) {
        let results = self.results();
        let test = self.function.code.len();
        self.add(Instruction::JumpUnless(0), 1, 0);
        self.open_block(None, results);
        self.blocks.last_mut().expect("an if").test = Some(test);
    }

    fn control(&mut self, byte: u8) {
        match byte {
            0x00 => self.add(Instruction::Unreachable, 0, 0),
            0x01 => (),
            0x02 => {
                let results = self.results();
                self.open_block(None, results);
            }
            0x03 => {
                self.results();
                self.open_block(Some(self.here()), 0);
            }
            0x04 => self.start_if(),
            0x05 => self.start_else(),
            0x0b => self.end(),
            0x0c => {
                let depth = self.bytes.number();
                let target = self.branch(depth);
                self.add(Instruction::Jump(target), 0, 0);
            }
            0x0d => {
                let depth = self.bytes.number();
                self.height = self.height.saturating_sub(1);
                let target = self.branch(depth);
                self.add(Instruction::JumpIf(target), 0, 0);
            }
            0x0e => self.table(),
            _ => self.add(Instruction::Return, 0, 0),
        }
    }

    fn call(&mut self) {
        let index = self.bytes.number();
        let Signature {
            parameters,
            results,
        } = self.of[index as usize];
        self.add(Instruction::Call(index), parameters as u32, results as u32);
    }

    fn access(&mut self, code: AccessCode) {
        self.bytes.number();
        let offset = self.bytes.number();
        let (takes, leaves) = match code.kind {
            AccessKind::Load => (1, 1),
            AccessKind::Store => (2, 0),
            AccessKind::Update(_) => (2, 1),
            AccessKind::CompareExchange => (3, 1),
        };
        self.add(
            Instruction::Access(AccessCode { offset, ..code }),
            takes,
            leaves,
        );
    }

    fn atomic(&mut self) {
        match self.bytes.number() {
            0x03 => {
                self.bytes.byte();
            }
            code => self.access(atomic(code)),
        }
    }

    fn variable(&mut self, byte: u8) {
        let index = self.bytes.number();
        match byte {
            0x20 => self.add(Instruction::Get(index), 0, 1),
            0x21 => self.add(Instruction::Set(index), 1, 0),
            0x22 => self.add(Instruction::Tee(index), 1, 1),
            0x23 => self.add(Instruction::GetGlobal(index), 0, 1),
            _ => self.add(Instruction::SetGlobal(index), 1, 0),
        }
    }

    fn instruction(&mut self) {
        let byte = self.bytes.byte();
        match byte {
            0x00..=0x05 | 0x0b..=0x0f => self.control(byte),
            0x10 => self.call(),
            0x1a => self.add(Instruction::Drop, 1, 0),
            0x1b => self.add(Instruction::Select, 3, 1),
            0x20..=0x24 => self.variable(byte),
            0x28..=0x3e => self.access(plain(byte)),
            0x3f => {
                self.bytes.byte();
                self.add(Instruction::MemorySize, 0, 1);
            }
            0x41 => {
                let value = u64::from(self.bytes.signed() as u32);
                self.add(Instruction::Constant(value), 0, 1);
            }
            0x42 => {
                let value = self.bytes.signed() as u64;
                self.add(Instruction::Constant(value), 0, 1);
            }
            0x43 | 0x44 => {
                let width = if byte == 0x43 { 4 } else { 8 };
                self.bytes.take(width);
                self.add(Instruction::Constant(0), 0, 1);
            }
            0xfe => self.atomic(),
            _ => self.numeric(byte),
        }
    }

    fn numeric(&mut self, byte: u8) {
        use Instruction::{Binary, Compare, Extend, IsZero, Unary, Wrap};
        match byte {
            0x45 | 0x50 => self.add(IsZero, 1, 1),
            0x46..=0x4f => self.add(Compare(byte, 32), 2, 1),
            0x51..=0x5a => self.add(Compare(byte - 0x0b, 64), 2, 1),
            0x67..=0x69 => self.add(Unary(byte, 32), 1, 1),
            0x79..=0x7b => self.add(Unary(byte - 0x12, 64), 1, 1),
            0x6a..=0x78 => self.add(Binary(byte, 32), 2, 1),
            0x7c..=0x8a => self.add(Binary(byte - 0x12, 64), 2, 1),
            0xa7 => self.add(Wrap, 1, 1),
            0xac => self.add(Extend(32, 64), 1, 1),
            0xad => self.add(Instruction::Nop, 1, 1),
            0xc0 => self.add(Extend(8, 32), 1, 1),
            0xc1 => self.add(Extend(16, 32), 1, 1),
            0xc2 => self.add(Extend(8, 64), 1, 1),
            0xc3 => self.add(Extend(16, 64), 1, 1),
            0xc4 => self.add(Extend(32, 64), 1, 1),
            _ => panic!("instruction {byte:#x}"),
        }
    }
}
