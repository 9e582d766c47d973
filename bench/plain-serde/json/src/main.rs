//! Reads the JSON text on standard input with `serde_json` and writes it again: what the commands on log documents are
//! timed beside.
use std::io::{Read, Write};

fn main() -> Result<(), Box<dyn std::error::Error>> {
    let mut bytes = Vec::new();
    std::io::stdin().read_to_end(&mut bytes)?;
    let value: serde_json::Value = serde_json::from_slice(&bytes)?;
    let text = serde_json::to_string(&value)?;
    std::io::stdout().write_all(text.as_bytes())?;
    Ok(())
}
