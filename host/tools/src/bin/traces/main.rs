//! Hands logs of the Rust to the check of a recorded trace, whole and damaged, and compares each verdict with the one that the
//! host expects.

mod damage;
mod logs;

use std::fmt::{Display, Formatter};
use std::fs;
use std::process::ExitCode;

use oracle::images::{self, KINDS, SIZE};
use oracle::loops;
use oracle::random::Random;
use oracle::state::{self, State};
use saxundeer::traces::{self, BadTrace};
use tools::options::{Options, Program};

use damage::DAMAGES;
use logs::Log;

const USAGE: &str = "usage: host/traces [--seed N] [--images N] [--steps N] \
    [--plant | --plant-line | --plant-copy] [ARCHIVE.a]";
/// A log whose verdict is another one is kept here, and its image.
const KEPT: [&str; 2] = ["target/host/differs.log", "target/host/differs.img"];
/// The most steps on a random image.
const BOUND: usize = 1_000;
/// So many damaged logs of each kind are made of each log.
const EACH: usize = 2;

struct Fault {
    what: String,
    log: Vec<u8>,
    image: Vec<u8>,
}

impl Fault {
    /// Says of which log it is.
    fn of(self, name: impl Display) -> Fault {
        Fault {
            what: format!("{name}: {}", self.what),
            ..self
        }
    }
}

/// The answer, the line that it names, and the memory that the accepted lines leave.
#[derive(PartialEq, Eq)]
struct Verdict {
    answer: u8,
    line: usize,
    copy: Vec<u8>,
}

impl Display for Verdict {
    fn fmt(&self, formatter: &mut Formatter) -> std::fmt::Result {
        write!(formatter, "{} at line {}", self.answer, self.line)
    }
}

/// A few NOPs on an image, and then a JSR in whose high operand byte the first or the second push lies.
fn call_onto_itself(random: &mut Random) -> (Vec<u8>, State) {
    let mut image = (KINDS[0].image)(random);
    let high = 0x0100 + random.below(256);
    let start = high - 2 - random.below(16);
    image[start..high - 2].fill(0xEA);
    image[high - 2] = 0x20;
    let first = State {
        counter: start as u16,
        stack: (high + random.below(2)) as u8,
        ..random.state()
    };
    (image, first)
}

/// The verdict of the check, on a copy that held something else before.
fn checked(image: &[u8], text: &[u8]) -> Verdict {
    let mut copy: Vec<u8> = image.iter().map(|byte| !byte).collect();
    copy.resize(SIZE, 0xFF);
    let (answer, line) = match traces::check(image, text, &mut copy) {
        Ok(()) => (0, 0),
        Err(BadTrace::MemoryNotFull) => (1, 0),
        Err(BadTrace::Malformed(line)) => (11, line),
        Err(BadTrace::Stray(line)) => (12, line),
    };
    Verdict { answer, line, copy }
}

/// The verdict by comparison with the log of an honest run: the first line that is another one is bad, with 11 where it is no
/// state's and 12 where it is. The first line may be any state: where it is another one than that of the log, the Rust is run
/// from there.
fn expected(image: &[u8], text: &[u8], honest: &Log) -> Result<Verdict, String> {
    let given: Vec<&[u8]> = text.split_inclusive(|byte| *byte == b'\n').collect();
    let verdict = |answer, line, honest: &Log, accepted| Verdict {
        answer,
        line,
        copy: honest.memory_after(image, accepted),
    };
    let Some(first) = given.first().and_then(|line| logs::state_of(line)) else {
        return Ok(verdict(11, 1, honest, 0));
    };
    let other;
    let honest = if honest.line(0) == given.first().copied() {
        honest
    } else {
        other = Log::of(image, first, given.len())?;
        &other
    };
    let mut others = (0..).zip(&given);
    let bad = others.find(|(number, line)| honest.line(*number) != Some(**line));
    Ok(match bad {
        None => verdict(0, 0, honest, given.len()),
        Some((number, line)) => {
            let answer = if logs::state_of(line).is_some() {
                12
            } else {
                11
            };
            verdict(answer, number + 1, honest, number)
        }
    })
}

/// How many logs were answered so.
#[derive(Clone, Copy, Default)]
struct Answers {
    accepted: usize,
    malformed: usize,
    astray: usize,
}

impl Answers {
    fn add(&mut self, verdict: &Verdict) {
        match verdict.answer {
            0 => self.accepted += 1,
            11 => self.malformed += 1,
            _ => self.astray += 1,
        }
    }

    fn all(&self) -> usize {
        self.accepted + self.malformed + self.astray
    }
}

/// What the logs of one kind of image came to.
#[derive(Clone, Copy, Default)]
struct Row {
    logs: usize,
    lines: usize,
    /// The steps whose cycles were converted.
    converted: usize,
    /// The logs that the Rust writes as it is, by their first differing line: none; the one after 8 cycles for 7; after a JSR
    /// that is listed; after a state from which the rules make no step.
    as_it_is: [usize; 4],
}

impl Row {
    fn head() {
        println!(
            "{:20}{:>7}{:>10}{:>11}{:>18}{:>14}{:>6}{:>9}",
            "the Rust's logs",
            "logs",
            "lines",
            "converted",
            "as it is: equal",
            "12 at 8 for 7",
            "JSR",
            "no step"
        );
    }

    fn print(&self, name: &str) {
        let [equal, cycles, call, no_step] = self.as_it_is;
        println!(
            "{name:20}{:7}{:10}{:11}{equal:18}{cycles:14}{call:6}{no_step:9}",
            self.logs, self.lines, self.converted
        );
    }

    fn add(&mut self, other: &Row) {
        self.logs += other.logs;
        self.lines += other.lines;
        self.converted += other.converted;
        for (count, more) in self.as_it_is.iter_mut().zip(other.as_it_is) {
            *count += more;
        }
    }
}

#[derive(Clone, Copy, PartialEq, Eq)]
enum Plant {
    None,
    /// The last digit of the log is none.
    Log,
    /// The check names the line after the one it does.
    Line,
    /// A byte of the copy is another one.
    Copy,
}

/// The marks that ask for them.
const PLANTS: [(&str, Plant); 3] = [
    ("--plant", Plant::Log),
    ("--plant-line", Plant::Line),
    ("--plant-copy", Plant::Copy),
];

struct Comparison {
    plant: Plant,
    /// For the first states and the damage, so that the images are those of host/report.
    random: Random,
    damaged: [Answers; DAMAGES.len()],
    /// Logs for an image of another length.
    refused: usize,
}

impl Comparison {
    /// The state of the first line: half of them that with which report starts.
    fn first(&mut self, image: &[u8]) -> State {
        let start = loops::start_of(image);
        if self.random.below(2) == 0 {
            return start;
        }
        let cycles = match self.random.below(4) {
            0 => 0,
            1 => self.random.draw(),
            // Such that the run comes to the last count, or begins behind it.
            2 => u64::MAX - self.random.below(4_000) as u64,
            _ => self.random.draw() >> self.random.below(64),
        };
        State {
            counter: start.counter,
            cycles,
            ..self.random.state()
        }
    }

    /// Compares the two verdicts on a log, and gives the expected one.
    fn compare(
        &self,
        image: &[u8],
        text: &[u8],
        honest: &Log,
        spoil: bool,
    ) -> Result<Verdict, Fault> {
        let fault = |what| Fault {
            what,
            log: text.to_vec(),
            image: image.to_vec(),
        };
        let expected = expected(image, text, honest).map_err(fault)?;
        let mut given = text.to_vec();
        if self.plant == Plant::Log
            && spoil
            && let Some(digit) = given.iter_mut().nth_back(1)
        {
            *digit = b'G';
        }
        let mut found = checked(image, &given);
        match self.plant {
            Plant::Line if spoil && found.line > 0 => found.line += 1,
            Plant::Copy if spoil => found.copy[0x0200] ^= 1,
            _ => {}
        }
        if (found.answer, found.line) != (expected.answer, expected.line) {
            return Err(fault(format!(
                "the host expects {expected}, the check says {found}"
            )));
        }
        let names = ["the host expects", "the check leaves"];
        match state::byte_difference(names, &expected.copy, &found.copy) {
            None => Ok(expected),
            Some(what) => Err(fault(format!("{expected}: {what}"))),
        }
    }

    /// The logs of a run: that of the Rust put right, that of the Rust as it is, and damaged ones.
    fn logs(
        &mut self,
        image: &[u8],
        first: State,
        steps: usize,
        is_last: bool,
    ) -> Result<Row, Fault> {
        let honest = Log::of(image, first, steps).map_err(|what| Fault {
            what,
            log: Vec::new(),
            image: image.to_vec(),
        })?;
        let text = honest.lines(honest.by_the_rust);
        let whole = self.compare(image, text, &honest, is_last);
        whole.map_err(|fault| fault.of("the Rust's log"))?;
        let past_call = self.compare(image, honest.lines(honest.count()), &honest, false);
        past_call.map_err(|fault| fault.of("the Rust's log with its JSR put right"))?;
        let raw = logs::as_it_is(image, first, steps);
        let raw = self.compare(image, &raw, &honest, false);
        let raw = raw.map_err(|fault| fault.of("the Rust as it is"))?;
        let mut row = Row {
            logs: 1,
            lines: honest.by_the_rust,
            converted: honest.converted,
            as_it_is: [0; 4],
        };
        row.as_it_is[match raw.line {
            0 => 0,
            line if line > honest.count() => 3,
            line if line > honest.by_the_rust => 2,
            _ => 1,
        }] += 1;
        for (place, damage) in DAMAGES.iter().enumerate() {
            for _ in 0..EACH {
                let damaged = (damage.make)(&mut self.random, text);
                // A log of one line has no two to swap.
                if damaged != text {
                    let verdict = self.compare(image, &damaged, &honest, is_last);
                    self.damaged[place].add(&verdict.map_err(|fault| fault.of(damage.name))?);
                }
            }
        }
        Ok(row)
    }

    /// An image of another length is refused with 1 and nothing is written, whatever the log.
    fn refused(&mut self, image: &[u8]) -> Result<(), Fault> {
        let text = logs::line_of(&self.random.state());
        let mut copy = self.random.memory();
        let before = copy.clone();
        let answer = traces::check(image, text.as_bytes(), &mut copy);
        if answer != Err(BadTrace::MemoryNotFull) || copy != before {
            return Err(Fault {
                what: format!("{} bytes were answered {answer:?}", image.len()),
                log: text.into_bytes(),
                image: image.to_vec(),
            });
        }
        self.refused += 1;
        Ok(())
    }

    fn all(&mut self, seed: u64, images: usize, steps: usize) -> Result<(), Fault> {
        let mut rows: [Row; KINDS.len()] = Default::default();
        let mut random = Random::new(seed);
        for number in 1..=images {
            let place = images::place_of(number);
            let image = (KINDS[place].image)(&mut random);
            let row = if image.len() == SIZE {
                let first = self.first(&image);
                self.logs(&image, first, BOUND, number == images)
            } else {
                self.refused(&image).map(|()| Row::default())
            };
            let name = format!("image {number} ({})", KINDS[place].name);
            rows[place].add(&row.map_err(|fault| fault.of(name))?);
        }
        Row::head();
        let mut all = Row::default();
        for (kind, row) in KINDS.iter().zip(&rows).filter(|(_, row)| row.logs > 0) {
            row.print(kind.name);
            all.add(row);
        }
        let mut calls = Row::default();
        for number in 1..=images / 12 {
            let (image, first) = call_onto_itself(&mut self.random);
            let row = self.logs(&image, first, BOUND, false);
            calls.add(&row.map_err(|fault| fault.of(format!("call {number}")))?);
        }
        calls.print("a JSR onto itself");
        all.add(&calls);
        for one in loops::all() {
            let row = self.logs(&one.image, loops::START, steps, false);
            let row = row.map_err(|fault| fault.of(one.name))?;
            row.print(one.name);
            all.add(&row);
        }
        all.print("all");
        self.summary(&all);
        Ok(())
    }

    fn summary(&self, all: &Row) {
        println!(
            "{:20}{:>8}{:>14}{:>14}{:>10}",
            "damage", "logs", "11, malformed", "12, astray", "accepted"
        );
        let mut damaged = 0;
        for (damage, answers) in DAMAGES.iter().zip(&self.damaged) {
            damaged += answers.all();
            println!(
                "{:20}{:8}{:14}{:14}{:10}",
                damage.name,
                answers.all(),
                answers.malformed,
                answers.astray,
                answers.accepted
            );
        }
        println!("{} images of another length: refused with 1", self.refused);
        println!(
            "{} logs of the Rust put right: accepted; as they are, and {damaged} damaged ones: each verdict, line and copy as expected",
            all.logs
        );
    }
}

fn traces(options: &Options) -> ExitCode {
    let seed = options.number("--seed", 6502);
    let images = options.number("--images", 2_400) as usize;
    let steps = options.number("--steps", 250_000) as usize;
    println!(
        "seed {seed}, images {images}, steps {steps}{}",
        options.remark()
    );
    // An earlier run may have kept some, which say nothing of this run.
    let _ = KEPT.map(fs::remove_file);
    let mut comparison = Comparison {
        plant: options.plant(&PLANTS).unwrap_or(Plant::None),
        random: Random::new(seed.wrapping_add(1)),
        damaged: Default::default(),
        refused: 0,
    };
    match comparison.all(seed, images, steps) {
        Ok(()) => ExitCode::SUCCESS,
        Err(Fault { what, log, image }) => {
            println!("the verdicts differ: {what}");
            let [log_file, image_file] = KEPT;
            match fs::write(log_file, log).and_then(|()| fs::write(image_file, image)) {
                Ok(()) => println!("  the log is kept as {log_file}, its image as {image_file}"),
                Err(fault) => println!("  they are not kept: {fault}"),
            }
            ExitCode::FAILURE
        }
    }
}

fn main() -> ExitCode {
    let marks = PLANTS.map(|(mark, _)| mark);
    Program::new("traces", USAGE, &["--seed", "--images", "--steps"], &marks).run(traces)
}
