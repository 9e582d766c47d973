//! Documents of version 2, whose writers and order are ignored.

/// An access to memory.
#[derive(Clone, Copy, Debug)]
pub struct Access {
    pub t: usize,
    pub n: u32,
    pub reads: bool,
    pub writes: bool,
    pub sc: bool,
    pub addr: u32,
    pub width: u32,
    /// The value that is read, and the one that is written.
    pub rv: u64,
    pub wv: u64,
}

/// A value of the documents: they have no others.
#[derive(Debug, Clone)]
pub enum Value {
    List(Vec<Value>),
    Text(String),
    Number(u64),
}

impl Value {
    pub fn list(&self) -> &[Value] {
        match self {
            Value::List(items) => items,
            _ => panic!("a list was expected"),
        }
    }

    pub fn number(&self) -> u64 {
        match self {
            Value::Number(number) => *number,
            _ => panic!("a number was expected"),
        }
    }

    pub fn text(&self) -> &str {
        match self {
            Value::Text(text) => text,
            _ => panic!("a text was expected"),
        }
    }

    fn write(&self, out: &mut String) {
        match self {
            Value::Number(number) => out.push_str(&number.to_string()),
            Value::Text(text) => {
                out.push('"');
                out.push_str(text);
                out.push('"');
            }
            Value::List(items) => {
                out.push('[');
                for (place, item) in items.iter().enumerate() {
                    if place > 0 {
                        out.push(',');
                    }
                    item.write(out);
                }
                out.push(']');
            }
        }
    }
}

/// The value of a text. Lists that are open wait on a stack.
pub fn parse(text: &[u8]) -> Value {
    let mut open: Vec<Vec<Value>> = vec![vec![]];
    let mut at = 0;
    while at < text.len() {
        let value = match text[at] {
            b'[' => {
                open.push(vec![]);
                None
            }
            b']' => open.pop().map(Value::List),
            b'"' => {
                let length = text[at + 1..]
                    .iter()
                    .position(|byte| *byte == b'"')
                    .expect("an end of the text");
                let value = String::from_utf8_lossy(&text[at + 1..at + 1 + length]).into_owned();
                at += length + 1;
                Some(Value::Text(value))
            }
            b'0'..=b'9' => {
                let mut number = 0u64;
                while at < text.len() && text[at].is_ascii_digit() {
                    number = number.wrapping_mul(10).wrapping_add(u64::from(text[at] - b'0'));
                    at += 1;
                }
                at -= 1;
                Some(Value::Number(number))
            }
            _ => None,
        };
        if let Some(value) = value {
            open.last_mut().expect("an open list").push(value);
        }
        at += 1;
    }
    open.pop().and_then(|mut values| values.pop()).expect("a value")
}

/// The accesses of a document, thread after thread, over a memory of zeros.
pub struct Log {
    document: Value,
    pub events: Vec<Access>,
    /// Where the accesses of each thread begin, and how many there are.
    pub base: Vec<usize>,
    pub len: Vec<usize>,
}

impl Log {
    pub fn of(document: Value) -> Log {
        let (mut events, mut base, mut len) = (vec![], vec![], vec![]);
        for (t, thread) in document.list()[2].list().iter().enumerate() {
            base.push(events.len());
            for (n, event) in thread.list()[4].list().iter().enumerate() {
                let event = event.list();
                let kind = event[0].text();
                events.push(Access {
                    t,
                    n: n as u32,
                    reads: kind != "w",
                    writes: kind != "r",
                    sc: event[1].text() == "sc",
                    addr: event[2].number() as u32,
                    width: event[3].number() as u32,
                    rv: if kind != "w" { event[4].number() } else { 0 },
                    wv: match kind {
                        "w" => event[4].number(),
                        "x" => event[5].number(),
                        _ => 0,
                    },
                });
            }
            len.push(events.len() - base[t]);
        }
        Log {
            document,
            events,
            base,
            len,
        }
    }

    pub fn init_at(&self, _address: u32) -> u8 {
        0
    }

    fn id(&self, writer: i32) -> String {
        match usize::try_from(writer) {
            Ok(writer) => format!("[{},{}]", self.events[writer].t, self.events[writer].n),
            Err(_) => "[]".to_string(),
        }
    }

    /// The document with these writers, for each access and byte, and this order.
    pub fn print(&self, writers: &[Vec<i32>], order: &[usize]) -> String {
        let mut out = String::from("[\"wasm-litmus-log\",2,[");
        for (t, thread) in self.document.list()[2].list().iter().enumerate() {
            out.push_str(if t > 0 { ",[" } else { "[" });
            for part in &thread.list()[..4] {
                part.write(&mut out);
                out.push(',');
            }
            out.push('[');
            for (n, event) in thread.list()[4].list().iter().enumerate() {
                let parts = if event.list()[0].text() == "x" { 6 } else { 5 };
                out.push_str(if n > 0 { ",[" } else { "[" });
                for (place, part) in event.list()[..parts].iter().enumerate() {
                    out.push_str(if place > 0 { "," } else { "" });
                    part.write(&mut out);
                }
                let index = self.base[t] + n;
                if self.events[index].reads {
                    let ids: Vec<String> = writers[index].iter().map(|writer| self.id(*writer)).collect();
                    out.push_str(&format!(",[{}]", ids.join(",")));
                }
                out.push(']');
            }
            out.push_str("]]");
        }
        let ids: Vec<String> = order.iter().map(|index| self.id(*index as i32)).collect();
        out.push_str(&format!("],[{}]]", ids.join(",")));
        out
    }
}
