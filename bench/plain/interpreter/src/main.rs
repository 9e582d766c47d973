//! A plain interpreter of a few instructions, with an enum of instructions and a `Vec` as the stack: what the thread
//! machine is timed beside. It runs the loop that its second argument names for as many steps as its first one says.
//! Steps are counted as `wmlab` counts them.

#[derive(Clone, Copy, PartialEq)]
enum Value {
    I32(u32),
    I64(u64),
}

#[derive(Clone, Copy)]
enum Operator {
    Add,
    Sub,
    Mul,
    And,
}

enum Instr {
    LocalGet(u32),
    LocalSet(u32),
    LocalTee(u32),
    I32Const(u32),
    I64Const(u64),
    Binary(Operator),
    Loop(usize),
    Block(usize),
    Br(u32),
    BrIf(u32),
    /// Its labels, and the default.
    BrTable(Box<(Vec<u32>, u32)>),
    Call(usize),
    /// An i32 at this offset from the address.
    Load(u32),
    Store(u32),
    Drop,
    Nop,
}

/// The bytes of a page.
const PAGE: usize = 65_536;

/// A block that is left for a nested one: its number, the position of the instruction that entered the nested one, and
/// where its operands begin; and where a branch to it goes on.
struct Level {
    block: usize,
    at: usize,
    base: usize,
    target: usize,
}

/// A function: its blocks, of which the first is its body, and how many locals it has.
struct Function {
    blocks: Vec<Vec<Instr>>,
    locals: usize,
}

/// A call that waits for another.
struct Frame<'m> {
    blocks: &'m [Vec<Instr>],
    locals: Vec<Value>,
    levels: Vec<Level>,
    block: usize,
    at: usize,
    base: usize,
}

struct Machine<'m> {
    functions: &'m [Function],
    blocks: &'m [Vec<Instr>],
    callers: Vec<Frame<'m>>,
    values: Vec<Value>,
    locals: Vec<Value>,
    levels: Vec<Level>,
    block: usize,
    at: usize,
    base: usize,
    memory: Vec<u8>,
    done: bool,
}

#[derive(Debug)]
struct Stuck;

impl<'m> Machine<'m> {
    #[cold]
    #[inline(never)]
    fn finish(&mut self) {
        match self.callers.pop() {
            None => self.done = true,
            Some(frame) => {
                self.values.truncate(self.base);
                self.blocks = frame.blocks;
                self.locals = frame.locals;
                self.levels = frame.levels;
                self.block = frame.block;
                self.at = frame.at;
                self.base = frame.base;
            }
        }
    }

    #[inline(never)]
    fn call(&mut self, callee: usize) -> Result<(), Stuck> {
        let functions: &'m [Function] = self.functions;
        let function = functions.get(callee).ok_or(Stuck)?;
        let frame = Frame {
            blocks: std::mem::replace(&mut self.blocks, &function.blocks),
            locals: std::mem::replace(&mut self.locals, vec![Value::I32(0); function.locals]),
            levels: std::mem::take(&mut self.levels),
            block: std::mem::replace(&mut self.block, 0),
            at: std::mem::replace(&mut self.at, 0),
            base: std::mem::replace(&mut self.base, self.values.len()),
        };
        self.callers.push(frame);
        Ok(())
    }

    fn enter(&mut self, block: usize, target: usize) {
        let level = Level { block: self.block, at: self.at, base: self.base, target };
        self.levels.push(level);
        self.base = self.values.len();
        self.block = block;
        self.at = 0;
    }

    fn pop(&mut self) -> Result<Value, Stuck> {
        self.values.pop().ok_or(Stuck)
    }

    fn set(&mut self, local: u32, value: Value) -> Result<(), Stuck> {
        *self.locals.get_mut(local as usize).ok_or(Stuck)? = value;
        Ok(())
    }

    /// The four bytes at this offset from the address on the stack.
    fn cell(&mut self, offset: u32) -> Result<&mut [u8], Stuck> {
        match self.pop()? {
            Value::I32(address) => {
                let start = address as usize + offset as usize;
                self.memory.get_mut(start..start + 4).ok_or(Stuck)
            }
            Value::I64(_) => Err(Stuck),
        }
    }

    fn load(&mut self, offset: u32) -> Result<(), Stuck> {
        let mut bytes = [0; 4];
        bytes.copy_from_slice(self.cell(offset)?);
        self.values.push(Value::I32(u32::from_le_bytes(bytes)));
        Ok(())
    }

    fn store(&mut self, offset: u32) -> Result<(), Stuck> {
        let Value::I32(number) = self.pop()? else {
            return Err(Stuck);
        };
        self.cell(offset)?.copy_from_slice(&number.to_le_bytes());
        Ok(())
    }

    fn leave(&mut self) {
        match self.levels.pop() {
            None => self.finish(),
            Some(level) => {
                self.block = level.block;
                self.at = level.at;
                self.base = level.base;
            }
        }
    }

    fn branch(&mut self, label: u32) -> Result<(), Stuck> {
        let left = self.levels.len().checked_sub(1 + label as usize).ok_or(Stuck)?;
        self.levels.truncate(left + 1);
        let level = self.levels.pop().ok_or(Stuck)?;
        self.values.truncate(self.base);
        self.block = level.block;
        self.at = level.target;
        self.base = level.base;
        Ok(())
    }

    #[inline(never)]
    fn step(&mut self) -> Result<(), Stuck> {
        let blocks = self.blocks;
        let Some(instr) = blocks[self.block].get(self.at) else {
            self.leave();
            return Ok(());
        };
        self.at += 1;
        match instr {
            Instr::LocalGet(local) => {
                let value = *self.locals.get(*local as usize).ok_or(Stuck)?;
                self.values.push(value);
            }
            Instr::LocalSet(local) => {
                let value = self.pop()?;
                self.set(*local, value)?;
            }
            Instr::LocalTee(local) => {
                let value = *self.values.last().ok_or(Stuck)?;
                self.set(*local, value)?;
            }
            Instr::I32Const(number) => self.values.push(Value::I32(*number)),
            Instr::I64Const(number) => self.values.push(Value::I64(*number)),
            Instr::Binary(operator) => {
                let right = self.pop()?;
                let left = self.pop()?;
                self.values.push(binary(*operator, left, right)?);
            }
            Instr::Loop(block) => self.enter(*block, self.at - 1),
            Instr::Block(block) => self.enter(*block, self.at),
            Instr::Br(label) => self.branch(*label)?,
            Instr::BrTable(table) => match self.pop()? {
                Value::I32(index) => self.branch(*table.0.get(index as usize).unwrap_or(&table.1))?,
                Value::I64(_) => return Err(Stuck),
            },
            Instr::Call(callee) => self.call(*callee)?,
            Instr::Load(offset) => self.load(*offset)?,
            Instr::Store(offset) => self.store(*offset)?,
            Instr::BrIf(label) => match self.pop()? {
                Value::I32(0) => {}
                Value::I32(_) => self.branch(*label)?,
                Value::I64(_) => return Err(Stuck),
            },
            Instr::Drop => {
                self.pop()?;
            }
            Instr::Nop => {}
        }
        Ok(())
    }
}

fn binary(operator: Operator, left: Value, right: Value) -> Result<Value, Stuck> {
    match (left, right) {
        (Value::I32(a), Value::I32(b)) => Ok(Value::I32(match operator {
            Operator::Add => a.wrapping_add(b),
            Operator::Sub => a.wrapping_sub(b),
            Operator::Mul => a.wrapping_mul(b),
            Operator::And => a & b,
        })),
        (Value::I64(a), Value::I64(b)) => Ok(Value::I64(match operator {
            Operator::Add => a.wrapping_add(b),
            Operator::Sub => a.wrapping_sub(b),
            Operator::Mul => a.wrapping_mul(b),
            Operator::And => a & b,
        })),
        _ => Err(Stuck),
    }
}

/// Counts a local down, and then does the last instruction.
fn counted(local: u32, last: Instr) -> Vec<Instr> {
    vec![
        Instr::LocalGet(local),
        Instr::I32Const(1),
        Instr::Binary(Operator::Sub),
        Instr::LocalTee(local),
        last,
    ]
}

/// A loop that adds 1 to a cell of the memory and then counts a local down from `turns`.
fn counting_in_memory(turns: u32) -> Function {
    let around = vec![
        Instr::LocalGet(0),
        Instr::LocalGet(0),
        Instr::Load(0),
        Instr::I32Const(1),
        Instr::Binary(Operator::Add),
        Instr::Store(0),
        Instr::I32Const(turns),
        Instr::LocalSet(1),
        Instr::Loop(2),
        Instr::Br(0),
    ];
    Function {
        blocks: vec![vec![Instr::Loop(1)], around, counted(1, Instr::BrIf(0))],
        locals: 2,
    }
}

/// The functions of the loop of this name. The same loops stand in `run`.
fn functions_of(name: &str) -> Vec<Function> {
    let calls = |locals| {
        vec![
            Function {
                blocks: vec![vec![Instr::Loop(1)], vec![Instr::Call(1), Instr::Br(0)]],
                locals: 0,
            },
            Function { blocks: vec![vec![]], locals },
        ]
    };
    match name {
        "br_table" => vec![Function {
            blocks: vec![
                vec![Instr::Loop(1)],
                vec![Instr::Block(2), Instr::Br(0)],
                vec![Instr::Block(3)],
                counted(0, Instr::BrTable(Box::new((vec![0, 1], 2)))),
            ],
            locals: 1,
        }],
        "calls" => calls(0),
        "locals" => calls(999),
        "memory" => vec![counting_in_memory(324)],
        _ => vec![Function {
            blocks: vec![vec![Instr::Loop(1)], counted(0, Instr::BrIf(0))],
            locals: 1,
        }],
    }
}

fn main() -> Result<(), Stuck> {
    let wanted: u64 = std::env::args().nth(1).and_then(|word| word.parse().ok()).unwrap_or(16_000_000);
    let mut functions = functions_of(&std::env::args().nth(2).unwrap_or_default());
    // Instructions that the loop doesn't use keep the match as it would be in a whole interpreter.
    functions[0].blocks.push(vec![
        Instr::LocalSet(0),
        Instr::I64Const(1),
        Instr::Binary(Operator::Add),
        Instr::Binary(Operator::Mul),
        Instr::Binary(Operator::And),
        Instr::Drop,
        Instr::Nop,
    ]);
    let mut machine = Machine {
        functions: &functions,
        blocks: &functions[0].blocks,
        callers: Vec::new(),
        values: Vec::new(),
        locals: vec![Value::I32(0); functions[0].locals],
        levels: Vec::new(),
        block: 0,
        at: 0,
        base: 0,
        memory: vec![0; PAGE],
        done: false,
    };
    let mut steps = 0u64;
    while steps < wanted && !machine.done {
        machine.step()?;
        steps += 1;
    }
    println!("{steps} steps, {} calls wait", machine.callers.len());
    Ok(())
}
