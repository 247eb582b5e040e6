//! The independent reference for the program `trials`: it makes the script, and says what each call must answer.
//! `reference make` writes the script, `reference answer` reads one on standard input and prints what is expected.

mod paper;
mod replica_vectors;
mod script;
mod state_vectors;
mod text_vectors;

use std::io::{self, Read, Write};

fn make() -> io::Result<()> {
    let mut script = script::Script::default();
    text_vectors::add_to(&mut script);
    replica_vectors::add_to(&mut script);
    state_vectors::add_to(&mut script);
    script.assert_every_answer();
    eprintln!("{} calls, {} bytes", script.calls, script.bytes.len());
    io::stdout().write_all(&script.bytes)
}

fn answer() -> io::Result<()> {
    let mut script = Vec::new();
    io::stdin().read_to_end(&mut script)?;
    io::stdout().write_all(script::expected(&script).as_bytes())
}

fn main() -> io::Result<()> {
    match std::env::args().nth(1).as_deref() {
        Some("make") => make(),
        Some("answer") => answer(),
        _ => {
            eprintln!("reference make | reference answer");
            std::process::exit(2)
        }
    }
}
