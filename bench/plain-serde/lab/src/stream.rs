//! Many logs: each line of the input is verified, on several threads, and answered in the order of the input.
use crate::document::{self, MAX_BYTES};
use crate::lab;
use crate::machine::Module;
use std::io::{self, ErrorKind, Read, Write};
use std::mem::take;
use std::sync::atomic::{AtomicUsize, Ordering};
use std::thread;

/// How many bytes a read asks for; the lines that end among them are judged at the same time.
const PART: usize = 1 << 22;

/// The lines of an input, in batches. Of a line that is too long, one byte more than the limit is kept.
struct Lines<R> { input: R, part: Vec<u8>, begun: Vec<u8>, is_at_end: bool }

impl<R: Read> Lines<R> {
    fn new(input: R) -> Lines<R> { Lines { input, part: vec![0; PART], begun: vec![], is_at_end: false } }

    /// The lines that the next read ends; None after the last.
    fn batch(&mut self) -> io::Result<Option<Vec<Vec<u8>>>> {
        if self.is_at_end { return Ok(None) }
        let count = loop {
            match self.input.read(&mut self.part) {
                Err(error) if error.kind() == ErrorKind::Interrupted => continue,
                result => break result?,
            }
        };
        self.is_at_end = count == 0;
        let mut lines = vec![];
        for piece in self.part[..count].split_inclusive(|&byte| byte == b'\n') {
            let (text, is_ended) = match piece { [text @ .., b'\n'] => (text, true), text => (text, false) };
            let room = MAX_BYTES + 1 - self.begun.len();
            self.begun.extend_from_slice(&text[..text.len().min(room)]);
            if is_ended { lines.push(take(&mut self.begun)) }
        }
        if self.is_at_end && !self.begun.is_empty() { lines.push(take(&mut self.begun)) }
        Ok(Some(lines))
    }
}

fn answer(module: &Module, line: &[u8], max: usize) -> String {
    let document = match document::read(line) { Ok(document) => document, Err(fault) => return fault.line() };
    lab::verify(module, &document, max)
}

/// The answers to lines, in their order. A thread takes the next line whenever it has answered one.
fn answers(module: &Module, lines: &[Vec<u8>], threads: usize, max: usize) -> Vec<String> {
    let next = AtomicUsize::new(0);
    let work = || {
        let mut found = vec![];
        loop {
            let number = next.fetch_add(1, Ordering::Relaxed);
            let Some(line) = lines.get(number) else { return found };
            found.push((number, answer(module, line, max)));
        }
    };
    let mut ordered = vec![String::new(); lines.len()];
    thread::scope(|scope| {
        let others: Vec<_> = (1..threads.min(lines.len())).map(|_| scope.spawn(work)).collect();
        let found = others.into_iter().map(|other| other.join().unwrap());
        for (number, text) in [work()].into_iter().chain(found).flatten() { ordered[number] = text }
    });
    ordered
}

/// Answers each line, and returns the exit status.
pub fn stream(module: &Module, threads: usize, max: usize) -> io::Result<i32> {
    let (mut lines, mut out) = (Lines::new(io::stdin().lock()), io::stdout().lock());
    let (mut has_broken, mut has_refused) = (false, false);
    while let Some(batch) = lines.batch()? {
        let mut text = String::new();
        for answer in answers(module, &batch, threads, max) {
            has_broken |= answer.starts_with("broken");
            has_refused |= answer.starts_with("refused");
            text.push_str(&answer);
            text.push('\n');
        }
        out.write_all(text.as_bytes())?;
        out.flush()?;
    }
    Ok(if has_broken { 1 } else if has_refused { 2 } else { 0 })
}
