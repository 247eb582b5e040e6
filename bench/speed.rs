//! Times a counter program and the plain counter on three large inputs: `speed PROGRAM PLAIN`. The plain one is timed twice: as it
//! is, asking the state rule at each take as the program does, and trusting its own state.
//! Times are those of the processor, user and system, best of five runs; the peak is of resident memory.

use std::fs::{self, File};
use std::io::{self, BufWriter, Read, Write};
use std::process::{Child, Command, ExitCode};
use std::time::{Duration, Instant};

const SLIPS: usize = 200_000;
const RUNS: usize = 5;
const SHOPS: usize = 16;
const LAST: usize = SHOPS - 1;

// ---------------------------------------------------------------------------------------------- inputs

fn code(place: usize) -> usize {
    10_000_000 + 7 * place
}

fn write_register(out: &mut impl Write) -> io::Result<()> {
    writeln!(out, "shops={SHOPS}")?;
    for place in 0..SHOPS {
        writeln!(out, "shop={}:500000", code(place))?;
    }
    writeln!(out, "own={}\n", code(0))
}

/// A slip and the empty line after it.
fn write_slip(
    out: &mut impl Write,
    [payer, number, payee, amount]: [usize; 4],
    deps: &[(usize, usize)],
) -> io::Result<()> {
    write!(out, "payer={}\nnumber={number:06}\npayee={}\namount={amount:06}\n", code(payer), code(payee))?;
    writeln!(out, "deps={:02}", deps.len())?;
    for &(place, number) in deps {
        writeln!(out, "dep={}:{number:06}", code(place))?;
    }
    writeln!(out)
}

/// All shops pay in turn, each time another one; every slip is applied.
/// With dependencies each slip names all other shops that have paid.
fn write_paying(out: &mut impl Write, with_deps: bool) -> io::Result<usize> {
    write_register(out)?;
    let mut paid = [0; SHOPS];
    for i in 0..SLIPS {
        let payer = i % SHOPS;
        let payee = (payer + 1 + i / SHOPS % LAST) % SHOPS;
        let named = (0..SHOPS).filter(|&place| with_deps && place != payer && paid[place] > 0);
        let deps: Vec<(usize, usize)> = named.map(|place| (place, paid[place])).collect();
        paid[payer] += 1;
        write_slip(out, [payer, paid[payer], payee, 1 + i % 9], &deps)?;
    }
    Ok(SLIPS)
}

/// Eight slips of each other shop wait for the last one's number 999999; the last one pays.
fn write_stuck(out: &mut impl Write) -> io::Result<usize> {
    write_register(out)?;
    for (payer, number) in (0..LAST).flat_map(|payer| (1..=8).map(move |number| (payer, number))) {
        write_slip(out, [payer, number, LAST, 1], &[(LAST, 999_999)])?;
    }
    for i in 0..SLIPS {
        write_slip(out, [LAST, i + 1, i % LAST, 1], &[])?;
    }
    Ok(8 * LAST + SLIPS)
}

// ---------------------------------------------------------------------------------------------- runs

/// `struct rusage` of Linux: two times, each in seconds and microseconds, then fourteen numbers.
#[repr(C)]
#[derive(Default)]
struct Usage {
    times: [[i64; 2]; 2],
    others: [i64; 14],
}

unsafe extern "C" {
    fn wait4(pid: i32, status: *mut i32, options: i32, usage: *mut Usage) -> i32;
}

/// Waits for the child; the processor's seconds that it took.
fn seconds_of(child: Child) -> io::Result<f64> {
    let (mut status, mut usage) = (0, Usage::default());
    // SAFETY: both places outlive the call, and nobody else waits for this child.
    if unsafe { wait4(child.id() as i32, &mut status, 0, &mut usage) } < 0 {
        return Err(io::Error::last_os_error());
    }
    if status != 0 {
        return Err(io::Error::other(format!("a program ended with status {status}")));
    }
    Ok(usage.times.iter().map(|[seconds, micros]| *seconds as f64 + *micros as f64 / 1e6).sum())
}

/// A program that is timed, under a name, with or without a word.
struct Timed<'a> {
    name: &'a str,
    program: &'a str,
    word: Option<&'a str>,
}

impl Timed<'_> {
    fn start(&self, input: &str) -> io::Result<Child> {
        let mut command = Command::new(self.program);
        command.args(self.word).stdin(File::open(input)?).stdout(File::create(self.output(input))?).spawn()
    }

    fn output(&self, input: &str) -> String {
        format!("{input}-{}", self.name)
    }
}

#[derive(Clone, Copy)]
struct Times {
    processor: f64,
    clock: f64,
}

impl Times {
    /// Before any run.
    const NONE: Times = Times { processor: f64::INFINITY, clock: f64::INFINITY };

    /// The better of these and those of one run more.
    fn and_run(self, timed: &Timed, input: &str) -> io::Result<Times> {
        let began = Instant::now();
        let processor = seconds_of(timed.start(input)?)?;
        let clock = began.elapsed().as_secs_f64();
        Ok(Times { processor: self.processor.min(processor), clock: self.clock.min(clock) })
    }
}

/// The peak of a running program's resident memory, in kB, as the kernel tells it; none once it has ended.
fn peak_now(child: &Child) -> Option<u64> {
    let status = fs::read_to_string(format!("/proc/{}/status", child.id())).ok()?;
    status.lines().find_map(|line| line.strip_prefix("VmHWM:")?.trim().strip_suffix(" kB")?.parse().ok())
}

/// The peak of one run, looked at each millisecond.
fn peak(timed: &Timed, input: &str) -> io::Result<u64> {
    let mut child = timed.start(input)?;
    let mut most = 0;
    while child.try_wait()?.is_none() {
        most = most.max(peak_now(&child).unwrap_or(0));
        std::thread::sleep(Duration::from_millis(1));
    }
    Ok(most)
}

/// Are two files equal? Read piece by piece.
fn same(one: &str, other: &str) -> io::Result<bool> {
    if fs::metadata(one)?.len() != fs::metadata(other)?.len() {
        return Ok(false);
    }
    let (one, other) = (io::BufReader::new(File::open(one)?), io::BufReader::new(File::open(other)?));
    for (left, right) in one.bytes().zip(other.bytes()) {
        if left? != right? {
            return Ok(false);
        }
    }
    Ok(true)
}

// ---------------------------------------------------------------------------------------------- the report

fn print_line(name: &str, slips: usize, times: Times, peak: u64) {
    let rate = slips as f64 / times.processor;
    println!("  {name:<8} {:7.3} s  {rate:9.0} slips/s  clock {:7.3} s  peak {peak} kB", times.processor, times.clock);
}

/// Times the programs on one input, run after run in turn; do they all write the same?
fn measure(all: &[Timed; 3], name: &str, slips: usize) -> io::Result<bool> {
    let input = format!("target/speed-{name}");
    let mut times = [Times::NONE; 3];
    for _ in 0..RUNS {
        for (best, timed) in times.iter_mut().zip(all) {
            *best = best.and_run(timed, &input)?;
        }
    }
    let mut equal = true;
    for timed in &all[1..] {
        equal &= same(&all[0].output(&input), &timed.output(&input))?;
    }
    println!("{name}: {slips} slips, outputs {}", if equal { "equal" } else { "DIFFER" });
    for (best, timed) in times.iter().zip(all) {
        print_line(timed.name, slips, *best, peak(timed, &input)?);
    }
    for (best, timed) in times.iter().zip(all).skip(1) {
        println!("  {} / {}: {:.2}", all[0].name, timed.name, times[0].processor / best.processor);
    }
    Ok(equal)
}

fn main() -> io::Result<ExitCode> {
    let words: Vec<String> = std::env::args().collect();
    let [_, program, plain] = &words[..] else {
        eprintln!("speed PROGRAM PLAIN");
        return Ok(ExitCode::from(2));
    };
    let all = [
        Timed { name: "program", program, word: None },
        Timed { name: "plain", program: plain, word: None },
        Timed { name: "trusting", program: plain, word: Some("trusting") },
    ];
    let mut equal = true;
    for name in ["small", "deps", "stuck"] {
        let mut out = BufWriter::new(File::create(format!("target/speed-{name}"))?);
        let slips = match name {
            "small" => write_paying(&mut out, false)?,
            "deps" => write_paying(&mut out, true)?,
            _ => write_stuck(&mut out)?,
        };
        out.flush()?;
        equal &= measure(&all, name, slips)?;
    }
    Ok(if equal { ExitCode::SUCCESS } else { ExitCode::FAILURE })
}
