//! The counter program of paper 01 over the plain replica: a register and slips in, answers and balances out.
//! Its memory does not grow with its input. With the word `trusting` it does not ask the state rule at each take: the state is its own.

#[allow(dead_code)] // The counter neither writes texts nor issues.
mod paper;

use paper::{LIST_ROOM, Refusal, Replica, SLIP_ROOM, WHY, number_of};
use std::io::{self, BufRead, BufReader, BufWriter, Write};
use std::process::ExitCode;

/// After so many slip chunks reading stops.
const MOST_SLIPS: usize = 999_999;
/// Of a chunk one byte more than any text has is kept: what is longer is refused all the same.
const KEPT: usize = SLIP_ROOM + 1;
const BUFFER: usize = 1 << 16;

/// The chunks of an input.
struct Chunks<R> {
    input: R,
    chunk: Vec<u8>,
}

impl<R: BufRead> Chunks<R> {
    fn new(input: R) -> Self {
        Chunks { input, chunk: Vec::with_capacity(KEPT) }
    }

    /// The next chunk; none where the input ends before its first byte. A read that fails is the end of the input.
    fn next(&mut self) -> Option<&[u8]> {
        self.chunk.clear();
        let mut last = b'\n';
        loop {
            let found = self.input.fill_buf().unwrap_or_default();
            if found.is_empty() {
                return (!self.chunk.is_empty()).then_some(&self.chunk);
            }
            let end = empty_line(found, last);
            let part = &found[..end.unwrap_or(found.len())];
            let room = KEPT - self.chunk.len();
            self.chunk.extend_from_slice(&part[..part.len().min(room)]);
            last = found[found.len() - 1];
            let used = end.map_or(found.len(), |end| end + 1);
            self.input.consume(used);
            if end.is_some() {
                return Some(&self.chunk);
            }
        }
    }
}

/// Where a byte 10 stands that closes no line, if the byte before these was `last`.
fn empty_line(bytes: &[u8], last: u8) -> Option<usize> {
    if last == b'\n' && bytes.first() == Some(&b'\n') {
        return Some(0);
    }
    bytes.windows(2).position(|pair| pair == b"\n\n").map(|place| place + 1)
}

/// Writes `key`, then the number in so many digits, then byte 10.
fn write_number<const WIDTH: usize>(out: &mut impl Write, key: &[u8], number: usize) -> io::Result<()> {
    let mut digits = [0; WIDTH];
    let mut rest = number;
    for digit in digits.iter_mut().rev() {
        *digit = b'0' + (rest % 10) as u8;
        rest /= 10;
    }
    out.write_all(key)?;
    out.write_all(&digits)?;
    out.write_all(b"\n")
}

fn write_answer(out: &mut impl Write, slip: usize, answer: Result<usize, Refusal>) -> io::Result<()> {
    let number = number_of(&answer);
    write_number::<6>(out, b"slip=", slip)?;
    write_number::<2>(out, b"answer=", number)?;
    out.write_all(b"why=")?;
    out.write_all(WHY[number].as_bytes())?;
    out.write_all(b"\n")?;
    write_number::<3>(out, b"applied=", answer.unwrap_or(0))
}

fn write_shops(out: &mut impl Write, replica: &Replica) -> io::Result<()> {
    for place in 0..replica.register.count {
        out.write_all(b"shop=")?;
        out.write_all(replica.register.shops[place].code.bytes())?;
        out.write_all(b"\n")?;
        write_number::<8>(out, b"balance=", replica.shops[place].balance as usize)?;
        write_number::<6>(out, b"done=", replica.shops[place].applied as usize)?;
        write_number::<1>(out, b"waits=", replica.lines[place].count)?;
    }
    Ok(())
}

fn run(input: impl BufRead, out: &mut impl Write, trusting: bool) -> io::Result<()> {
    let mut chunks = Chunks::new(input);
    let opened = Replica::open(chunks.next().unwrap_or_default());
    write_number::<2>(out, b"register=", number_of(&opened))?;
    if let Ok(mut replica) = opened {
        let mut list = [0; LIST_ROOM];
        for slip in 1..=MOST_SLIPS {
            let Some(chunk) = chunks.next() else { break };
            let taken = if trusting { replica.take_owned(chunk, &mut list) } else { replica.take(chunk, &mut list) };
            write_answer(out, slip, taken)?;
        }
        write_shops(out, &replica)?;
    }
    out.flush()
}

fn main() -> ExitCode {
    let input = BufReader::with_capacity(BUFFER, io::stdin().lock());
    let mut out = BufWriter::with_capacity(BUFFER, io::stdout().lock());
    let trusting = std::env::args().nth(1).is_some_and(|word| word == "trusting");
    if run(input, &mut out, trusting).is_err() {
        // Nothing is written after a write that failed: the buffer is thrown away.
        let _ = out.into_parts();
        return ExitCode::FAILURE;
    }
    ExitCode::SUCCESS
}
