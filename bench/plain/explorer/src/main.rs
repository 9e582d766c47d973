//! The outcomes of a module: `explorer [--no-lazy] MODULE EVENTS START..` prints what `wmlab explore` does, but for the
//! number of graphs.
//!
//! A graph has events with the writers of each byte that was read, and is extended by one event of a thread at a time:
//! first by writes, then by each choice of the writers of a read. A read whose choices were tried waits for a further
//! write; without `--no-lazy` only if another thread was seen to make one. A turn that only reads and leaves a thread as it
//! was is not taken again.
mod accesses;
mod body;
mod bytes;
mod choices;
mod code;
mod decode;
mod graph;
mod numeric;
mod order;
mod search;
mod state;
mod thread;

use code::Module;
use search::{Marks, Search};
use thread::Thread;

/// The search recurses as deep as there are events and marks.
const STACK: usize = 1 << 30;

fn started(module: &Module, word: &str) -> Thread {
    let mut parts = word.split(':');
    let name = parts.next().expect("a name");
    let arguments: Vec<u64> = parts
        .map(|part| part.parse().expect("an argument"))
        .collect();
    Thread::start(module, name, &arguments).unwrap_or_else(|| panic!("{word}: no such function"))
}

fn run(words: &[String]) {
    let (marks, words) = match words.strip_prefix(&["--no-lazy".to_string()]) {
        Some(rest) => (Marks::Always, rest),
        None => (Marks::Lazy, words),
    };
    let module = decode::module(&std::fs::read(&words[0]).expect("a module"));
    let most = words[1].parse().expect("a number of events");
    let mut search = Search::new(&module, most, marks);
    search.start(
        words[2..]
            .iter()
            .map(|word| started(&module, word))
            .collect(),
    );
    for outcome in &search.outcomes {
        println!("outcome {outcome}");
    }
    let found = format!(
        "outcomes={} graphs={}",
        search.outcomes.len(),
        search.graphs
    );
    match (search.long.first(), search.cut.first()) {
        (Some(thread), _) => println!("bounded {found} steps thread {thread}"),
        (None, Some(thread)) => println!("bounded {found} events thread {thread}"),
        (None, None) => println!("explored {found}"),
    }
}

fn main() {
    let words: Vec<String> = std::env::args().skip(1).collect();
    let work = std::thread::Builder::new()
        .stack_size(STACK)
        .spawn(move || run(&words));
    if work.expect("a thread").join().is_err() {
        std::process::exit(3);
    }
}
