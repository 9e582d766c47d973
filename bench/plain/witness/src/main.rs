//! Whether any writers and any order make a log valid: `witness DOC [NODES]` reads a document of version 2 over a memory of
//! zeros, and prints what `wmlab witness DOC [NODES]` does.
//!
//! The search is made twice: first as if each tear-free read synchronized with the write that it takes from, which finds
//! most witnesses soon and proves nothing; then as the rules are.
mod document;
mod index;
mod judge;
mod search;

use document::{parse, Access, Log};
use index::Index;
use search::{Answer, Search};

/// The memory of a document without a module: 16 pages.
const MEMORY_BYTES: u64 = 16 * 65_536;

/// Ends with a refusal if an access is past the memory.
fn refuse_far(log: &Log) {
    let is_far = |access: &&Access| u64::from(access.addr) + u64::from(access.width) > MEMORY_BYTES;
    if let Some(access) = log.events.iter().find(is_far) {
        println!("refused shape RangeOutOfMemory at {}.{}", access.t, access.n);
        std::process::exit(2);
    }
}

fn main() {
    let words: Vec<String> = std::env::args().collect();
    let budget = words
        .get(2)
        .map_or(100_000, |word| word.parse().expect("a number of nodes"));
    let text = std::fs::read(&words[1]).expect("a document");
    let log = Log::of(parse(&text));
    refuse_far(&log);
    let index = Index::of(&log);
    let judge = |writers: &Vec<Vec<i32>>, order: &Vec<usize>| judge::judge(&log, &index, writers, order).is_ok();
    let first = 200 + 2 * log.events.len() as u64;
    let mut answer = Search::new(&log, &index, true).search(first.min(budget), &judge);
    if !matches!(answer, Answer::Found(..)) {
        answer = Search::new(&log, &index, false).search(budget, &judge);
    }
    let status = match answer {
        Answer::Found(writers, order) => {
            println!("{}", log.print(&writers, &order));
            0
        }
        Answer::None => {
            println!("no witness threads={} events={}", log.len.len(), log.events.len());
            1
        }
        Answer::GaveUp => {
            println!("gave up nodes={budget}");
            2
        }
    };
    std::process::exit(status);
}
