//! Compares a counter program with the plain counter on random inputs: `compare PROGRAM PLAIN N [SEED]`.
//! Case i has the seed SEED + i, so `compare PROGRAM PLAIN 1 SEED` makes a case again.

mod inputs;
#[allow(dead_code)] // The maker of inputs only opens and takes.
mod paper;

use inputs::{Dice, input};
use std::fs::{self, File};
use std::io::{self, Write};
use std::process::{Command, ExitCode, Output, Stdio};
use std::time::{Duration, SystemTime};

/// Where each input is put, and the first that differs is left.
const PATH: &str = "target/compare-input";

/// The program's run on the input's file.
fn run_on_file(program: &str) -> io::Result<Output> {
    Command::new(program).stdin(File::open(PATH)?).stderr(Stdio::inherit()).output()
}

/// The program's run on the same bytes from a pipe, piece by piece, so that reads fall short.
fn run_on_pipe(program: &str, dice: &mut Dice) -> io::Result<Output> {
    let bytes = fs::read(PATH)?;
    let pieces: Vec<usize> = (0..4).map(|_| dice.below(bytes.len() + 1)).collect();
    let mut child =
        Command::new(program).stdin(Stdio::piped()).stdout(Stdio::piped()).stderr(Stdio::inherit()).spawn()?;
    let mut pipe = child.stdin.take().expect("a pipe");
    let writer = std::thread::spawn(move || {
        let mut left = &bytes[..];
        for piece in pieces {
            let (now, later) = left.split_at(piece.min(left.len()));
            // A program that has stopped reading may have closed its end.
            let _ = pipe.write_all(now);
            std::thread::sleep(Duration::from_millis(1));
            left = later;
        }
        let _ = pipe.write_all(left);
    });
    let output = child.wait_with_output();
    writer.join().expect("the writer never fails");
    output
}

/// Do both programs print the same on the input of this seed, which is left in a file? A program that is killed does not.
fn equal(program: &str, plain: &str, seed: u64) -> io::Result<bool> {
    let mut dice = Dice(seed);
    fs::write(PATH, input(&mut dice))?;
    let expected = run_on_file(plain)?;
    let found = if dice.one_in(3) { run_on_pipe(program, &mut dice)? } else { run_on_file(program)? };
    Ok(found.status.code().is_some() && found.stdout == expected.stdout)
}

/// The seed of the first case that differs.
fn first_difference(program: &str, plain: &str, cases: u64, seed: u64) -> io::Result<Option<u64>> {
    for seed in (0..cases).map(|case| seed.wrapping_add(case)) {
        if !equal(program, plain, seed)? {
            return Ok(Some(seed));
        }
    }
    Ok(None)
}

fn seed_of_the_clock() -> u64 {
    let now = SystemTime::now().duration_since(SystemTime::UNIX_EPOCH);
    now.map_or(1, |now| now.as_millis() as u64)
}

fn main() -> io::Result<ExitCode> {
    let words: Vec<String> = std::env::args().collect();
    let number = |i: usize| words.get(i).and_then(|word| word.parse::<u64>().ok());
    let (4 | 5, Some(cases)) = (words.len(), number(3)) else {
        eprintln!("compare PROGRAM PLAIN N [SEED]");
        return Ok(ExitCode::from(2));
    };
    let seed = number(4).unwrap_or_else(seed_of_the_clock);
    println!("seed={seed}");
    match first_difference(&words[1], &words[2], cases, seed)? {
        None => println!("{cases} cases equal"),
        Some(seed) => {
            println!("the input of seed={seed} differs: {PATH}");
            return Ok(ExitCode::FAILURE);
        }
    }
    Ok(ExitCode::SUCCESS)
}
