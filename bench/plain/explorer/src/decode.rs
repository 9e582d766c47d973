//! Reads a module in the binary format.
use crate::body::Body;
use crate::bytes::Bytes;
use crate::code::{Function, Module};

/// How many parameters and results a function has.
#[derive(Clone, Copy)]
pub struct Signature {
    pub parameters: usize,
    pub results: usize,
}

fn signatures(bytes: &mut Bytes) -> Vec<Signature> {
    let mut found = Vec::new();
    for _ in 0..bytes.number() {
        assert_eq!(bytes.byte(), 0x60, "a function type");
        let parameters = bytes.number() as usize;
        bytes.take(parameters);
        let results = bytes.number() as usize;
        bytes.take(results);
        found.push(Signature {
            parameters,
            results,
        });
    }
    found
}

fn memory(bytes: &mut Bytes) -> u64 {
    let mut pages = 0;
    for _ in 0..bytes.number() {
        let flags = bytes.byte();
        pages = u64::from(bytes.number());
        if flags & 1 == 1 {
            bytes.number();
        }
    }
    pages
}

fn globals(bytes: &mut Bytes) -> Vec<u64> {
    let mut found = Vec::new();
    for _ in 0..bytes.number() {
        bytes.take(2);
        let value = bytes.constant(&found);
        found.push(value);
    }
    found
}

fn exports(bytes: &mut Bytes, module: &mut Module) {
    for _ in 0..bytes.number() {
        let name = bytes.name();
        let is_function = bytes.byte() == 0;
        let index = bytes.number() as usize;
        if is_function {
            module.exports.insert(name, index);
        }
    }
}

fn data(bytes: &mut Bytes, module: &mut Module) {
    for _ in 0..bytes.number() {
        assert_eq!(bytes.number(), 0, "an active segment");
        let start = bytes.constant(&module.globals) as u32;
        let count = bytes.number();
        for (place, byte) in (start..).zip(bytes.take(count as usize)) {
            if *byte != 0 {
                module.data.insert(place, *byte);
            }
        }
    }
}

fn functions(bytes: &mut Bytes, of: &[Signature]) -> Vec<Function> {
    let mut found = Vec::new();
    for index in 0..bytes.number() as usize {
        let size = bytes.number() as usize;
        found.push(Body::new(bytes.take(size), of).function(of[index]));
    }
    found
}

pub fn module(file: &[u8]) -> Module {
    let mut bytes = Bytes::new(file);
    assert_eq!(bytes.take(8), b"\0asm\x01\0\0\0", "a module");
    let (mut module, mut types, mut of) = (Module::default(), Vec::new(), Vec::new());
    while !bytes.is_empty() {
        let id = bytes.byte();
        let size = bytes.number() as usize;
        let mut section = Bytes::new(bytes.take(size));
        match id {
            1 => types = signatures(&mut section),
            3 => {
                of = (0..section.number())
                    .map(|_| types[section.number() as usize])
                    .collect()
            }
            5 => module.pages = memory(&mut section),
            6 => module.globals = globals(&mut section),
            7 => exports(&mut section, &mut module),
            10 => module.functions = functions(&mut section, &of),
            11 => data(&mut section, &mut module),
            _ => (),
        }
    }
    module
}
