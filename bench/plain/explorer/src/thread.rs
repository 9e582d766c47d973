//! A thread, which runs from one access to the memory to the next.
use crate::code::{AccessCode, AccessKind, Instruction, Module, Target, Update};
use crate::numeric;

pub const MAX_STEPS: u64 = 1_000_000;
const MAX_FRAMES: usize = 256;

#[derive(Clone, PartialEq, Eq)]
pub enum End {
    Done(Option<u64>),
    Trap(&'static str),
    Steps,
}

/// What a thread asks of the memory. The operand is stored, or takes part in an update; `expected` is compared.
#[derive(Clone, Copy, PartialEq, Eq)]
pub struct Access {
    pub kind: AccessKind,
    pub is_atomic: bool,
    pub address: u32,
    pub width: u32,
    pub operand: u64,
    pub expected: u64,
}

impl Access {
    pub fn reads(&self) -> bool {
        self.kind != AccessKind::Store
    }

    pub fn may_write(&self) -> bool {
        self.kind != AccessKind::Load
    }

    /// What it writes after it has read a value; None if it doesn't write.
    pub fn written(&self, read: u64) -> Option<u64> {
        let value = match self.kind {
            AccessKind::Load => return None,
            AccessKind::CompareExchange if read != self.expected => return None,
            AccessKind::Store | AccessKind::CompareExchange => self.operand,
            AccessKind::Update(update) => match update {
                Update::Add => read.wrapping_add(self.operand),
                Update::Sub => read.wrapping_sub(self.operand),
                Update::And => read & self.operand,
                Update::Or => read | self.operand,
                Update::Xor => read ^ self.operand,
                Update::Exchange => self.operand,
            },
        };
        Some(value & mask(self.width))
    }
}

fn mask(width: u32) -> u64 {
    u64::MAX >> (64 - 8 * width)
}

/// A call: its function, its next instruction, and where its locals begin on the stack.
#[derive(Clone, Copy, PartialEq, Eq)]
struct Frame {
    function: u32,
    next: u32,
    base: u32,
}

#[derive(Clone)]
pub struct Thread {
    frames: Vec<Frame>,
    stack: Vec<u64>,
    globals: Vec<u64>,
    steps: u64,
    pub end: Option<End>,
}

impl Thread {
    pub fn start(module: &Module, name: &str, arguments: &[u64]) -> Option<Self> {
        let function = *module.exports.get(name)?;
        if module.functions[function].parameters != arguments.len() {
            return None;
        }
        let (frames, stack, globals) = (Vec::new(), arguments.to_vec(), module.globals.clone());
        let mut thread = Thread {
            frames,
            stack,
            globals,
            steps: 0,
            end: None,
        };
        thread.call(module, function);
        Some(thread)
    }

    /// Whether the other one goes on in the same way.
    pub fn is_same(&self, other: &Thread) -> bool {
        self.frames == other.frames
            && self.stack == other.stack
            && self.globals == other.globals
            && self.end == other.end
    }

    fn call(&mut self, module: &Module, function: usize) {
        let called = &module.functions[function];
        let base = self.stack.len() - called.parameters;
        self.stack.resize(self.stack.len() + called.locals, 0);
        self.frames.push(Frame {
            function: function as u32,
            next: 0,
            base: base as u32,
        });
    }

    fn pop(&mut self) -> u64 {
        self.stack.pop().expect("an operand")
    }

    /// Keeps the topmost values and drops the others down to a height.
    fn drop_below(&mut self, keep: usize, height: usize) {
        let from = self.stack.len() - keep;
        if from != height {
            self.stack.copy_within(from.., height);
            self.stack.truncate(height + keep);
        }
    }

    fn jump(&mut self, frame: &mut Frame, target: Target) {
        self.drop_below(target.keep as usize, (frame.base + target.height) as usize);
        frame.next = target.next;
    }

    /// The access that an instruction makes of these operands, or the kind of its trap.
    fn access(&self, module: &Module, code: &AccessCode) -> Result<Access, &'static str> {
        let top = |depth: usize| self.stack[self.stack.len() - 1 - depth];
        let (address, operand, expected) = match code.kind {
            AccessKind::Load => (top(0), 0, 0),
            AccessKind::Store | AccessKind::Update(_) => (top(1), top(0), 0),
            AccessKind::CompareExchange => (top(2), top(0), top(1)),
        };
        let address = address + u64::from(code.offset);
        if code.is_atomic && address % u64::from(code.width) != 0 {
            return Err("unaligned");
        }
        if address + u64::from(code.width) > module.pages * 65_536 {
            return Err("out-of-bounds");
        }
        let AccessCode {
            kind,
            is_atomic,
            width,
            ..
        } = *code;
        let operand = operand & mask(width);
        Ok(Access {
            kind,
            is_atomic,
            address: address as u32,
            width,
            operand,
            expected,
        })
    }

    /// Runs up to the next access, which is answered; None if the thread ends before.
    pub fn next_access(&mut self, module: &Module) -> Option<Access> {
        while self.end.is_none() {
            if self.steps >= MAX_STEPS {
                self.end = Some(End::Steps);
                break;
            }
            let frame = self.frames.last().expect("a frame");
            let code = &module.functions[frame.function as usize].code;
            if let Instruction::Access(access) = &code[frame.next as usize] {
                match self.access(module, access) {
                    Ok(access) => return Some(access),
                    Err(kind) => self.end = Some(End::Trap(kind)),
                }
            } else if let Err(kind) = self.step(module) {
                self.end = Some(End::Trap(kind));
            }
            self.steps += 1;
        }
        None
    }

    /// Makes the access at which the thread stands, which reads a value.
    pub fn make_access(&mut self, module: &Module, read: u64) {
        let frame = self.frames.last_mut().expect("a frame");
        let code = &module.functions[frame.function as usize].code[frame.next as usize];
        let Instruction::Access(AccessCode {
            kind, signed, bits, ..
        }) = *code
        else {
            unreachable!("the thread stands at an access")
        };
        frame.next += 1;
        self.steps += 1;
        let operands = match kind {
            AccessKind::Load => 1,
            AccessKind::Store | AccessKind::Update(_) => 2,
            AccessKind::CompareExchange => 3,
        };
        self.stack.truncate(self.stack.len() - operands);
        if kind != AccessKind::Store {
            let value = if signed == 0 {
                read
            } else {
                numeric::extend(read, signed, bits)
            };
            self.stack.push(value);
        }
    }

    fn step(&mut self, module: &Module) -> Result<(), &'static str> {
        let mut frame = *self.frames.last().expect("a frame");
        let function = &module.functions[frame.function as usize];
        let instruction = function.code[frame.next as usize];
        frame.next += 1;
        match instruction {
            Instruction::Unreachable => return Err("unreachable"),
            Instruction::Jump(target) => self.jump(&mut frame, target),
            Instruction::JumpIf(target) => {
                if self.pop() != 0 {
                    self.jump(&mut frame, target);
                }
            }
            Instruction::JumpUnless(next) => {
                if self.pop() == 0 {
                    frame.next = next;
                }
            }
            Instruction::Table(first, count) => {
                let index = self.pop().min(u64::from(count)) as usize;
                self.jump(&mut frame, function.targets[first as usize + index]);
            }
            Instruction::Return => {
                self.leave(frame, function.results);
                return Ok(());
            }
            Instruction::Call(callee) => {
                if self.frames.len() >= MAX_FRAMES {
                    return Err("exhausted");
                }
                *self.frames.last_mut().expect("a frame") = frame;
                self.call(module, callee as usize);
                return Ok(());
            }
            _ => self.simple(module, frame.base as usize, instruction)?,
        }
        *self.frames.last_mut().expect("a frame") = frame;
        Ok(())
    }

    fn leave(&mut self, frame: Frame, results: usize) {
        self.drop_below(results, frame.base as usize);
        self.frames.pop();
        if self.frames.is_empty() {
            self.end = Some(End::Done(self.stack.last().copied()));
        }
    }

    /// An instruction after which the next one comes.
    fn simple(
        &mut self,
        module: &Module,
        base: usize,
        instruction: Instruction,
    ) -> Result<(), &'static str> {
        match instruction {
            Instruction::Nop => (),
            Instruction::Drop => {
                self.pop();
            }
            Instruction::Set(local) => self.stack[base + local as usize] = self.pop(),
            Instruction::SetGlobal(global) => self.globals[global as usize] = self.pop(),
            _ => {
                let value = self.result(module, base, instruction)?;
                self.stack.push(value);
            }
        }
        Ok(())
    }

    /// What an instruction of one result makes of its operands.
    fn result(
        &mut self,
        module: &Module,
        base: usize,
        instruction: Instruction,
    ) -> Result<u64, &'static str> {
        Ok(match instruction {
            Instruction::Tee(local) => {
                let value = self.pop();
                self.stack[base + local as usize] = value;
                value
            }
            Instruction::Get(local) => self.stack[base + local as usize],
            Instruction::GetGlobal(global) => self.globals[global as usize],
            Instruction::Constant(value) => value,
            Instruction::MemorySize => module.pages,
            Instruction::Select => {
                let (test, other, first) = (self.pop(), self.pop(), self.pop());
                if test != 0 {
                    first
                } else {
                    other
                }
            }
            Instruction::IsZero => u64::from(self.pop() == 0),
            Instruction::Wrap => self.pop() & u64::from(u32::MAX),
            Instruction::Extend(from, to) => numeric::extend(self.pop(), from, to),
            Instruction::Unary(byte, bits) => numeric::unary(byte, bits, self.pop()),
            Instruction::Compare(byte, bits) => {
                let (second, first) = (self.pop(), self.pop());
                u64::from(numeric::compare(byte, bits, first, second))
            }
            Instruction::Binary(byte, bits) => {
                let (second, first) = (self.pop(), self.pop());
                numeric::binary(byte, bits, first, second)?
            }
            _ => unreachable!("it has a result"),
        })
    }
}
