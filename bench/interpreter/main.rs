//! A plain interpreter of program images, in safe Rust and with no proofs, to compare `plc run` with.
//! interpreter IMAGE PLAN SCANS [--print] [--flags] [--budget B]
//! PLAN: line 1 the milliseconds from one scan to the next, then a line for each scan, used in turn: `bits;words`, the numbers of
//! the TRUE bits of %I, and k=v for its words. It prints one line of JSON: scans, instructions performed and nanoseconds; with
//! --print the answers of the scans. --flags asks before each instruction whether a breakpoint is there.

mod blocks;
mod image;
mod program;

use program::{scan, Program, Ran, Stop, AREA, BITS};
use std::fmt::Write;
use std::hint::black_box;
use std::time::Instant;

#[derive(Default)]
struct Words {
    files: Vec<String>,
    prints: bool,
    flags: bool,
    budget: Option<u32>,
}

fn words() -> Words {
    let mut found = Words::default();
    let mut words = std::env::args().skip(1);
    while let Some(word) = words.next() {
        match word.as_str() {
            "--print" => found.prints = true,
            "--flags" => found.flags = true,
            "--budget" => found.budget = words.next().and_then(|it| it.parse().ok()),
            _ => found.files.push(word),
        }
    }
    found
}

/// The inputs of one line of a plan.
fn inputs(line: &str) -> [i32; AREA] {
    let mut inputs = [0; AREA];
    let (bits, words) = line.split_once(';').unwrap();
    for bit in bits.split_whitespace() {
        inputs[bit.parse::<usize>().unwrap()] = 1;
    }
    for word in words.split_whitespace() {
        let (number, value) = word.split_once('=').unwrap();
        inputs[BITS + number.parse::<usize>().unwrap()] = value.parse().unwrap();
    }
    inputs
}

/// The line of an answer, as `plc run` prints it.
fn put_answer(text: &mut String, count: u64, stop: Option<(Stop, usize)>, outputs: &[i32; AREA]) {
    if let Some((stop, position)) = stop {
        let _ = writeln!(text, "stopped {} {position}", stop.name());
        return;
    }
    let _ = write!(text, "outputs {count}");
    for bit in (0..BITS).filter(|&it| outputs[it] != 0) {
        let _ = write!(text, " QX{}.{}", bit / 8, bit % 8);
    }
    for word in (0..AREA - BITS).filter(|&it| outputs[BITS + it] != 0) {
        let _ = write!(text, " QW{word}={}", outputs[BITS + word]);
    }
    text.push('\n');
}

struct Run<'a> {
    program: Program,
    inputs: &'a [[i32; AREA]],
    period: u64,
    budget: u32,
    flags: Option<Vec<bool>>,
}

impl Run<'_> {
    /// Scan number `count`, from 0: latches its inputs, runs, releases its outputs.
    fn scan(&mut self, count: u64, outputs: &mut [i32; AREA]) -> Ran {
        let inputs = &self.inputs[count as usize % self.inputs.len()];
        self.program.cells[..AREA].copy_from_slice(inputs);
        let moment = count * self.period;
        let ran = match &self.flags {
            Some(flags) => scan::<true>(&mut self.program, moment, self.budget, flags),
            None => scan::<false>(&mut self.program, moment, self.budget, &[]),
        };
        outputs.copy_from_slice(&self.program.cells[AREA..2 * AREA]);
        ran
    }
}

fn main() {
    let words = words();
    let [image, plan, scans] = words.files.as_slice() else {
        eprintln!("usage: interpreter IMAGE PLAN SCANS [--print] [--flags] [--budget B]");
        std::process::exit(3);
    };
    let program = image::program(&std::fs::read(image).unwrap());
    let plan = std::fs::read_to_string(plan).unwrap();
    let mut lines = plan.lines();
    let period = lines.next().unwrap().trim().parse().unwrap();
    let inputs: Vec<[i32; AREA]> = lines.map(inputs).collect();
    let scans: u64 = scans.parse().unwrap();
    let flags = words.flags.then(|| vec![false; program.code.len()]);
    let budget = words.budget.unwrap_or(1_000_000);
    let mut run = Run {
        program,
        inputs: &inputs,
        period,
        budget,
        flags,
    };
    let (mut outputs, mut text) = ([0; AREA], String::new());
    let (mut performed, mut stop) = (0, None);
    let began = Instant::now();
    for count in 0..scans {
        if stop.is_none() {
            let ran = run.scan(count, &mut outputs);
            performed += ran.performed as u64;
            stop = ran.stop;
            black_box(&outputs);
        }
        if words.prints {
            put_answer(&mut text, count + 1, stop, &outputs);
        }
    }
    let nanoseconds = began.elapsed().as_nanos();
    if words.prints {
        print!("{text}");
    } else {
        println!(r#"{{"scans":{scans},"performed":{performed},"nanoseconds":{nanoseconds}}}"#);
    }
}
