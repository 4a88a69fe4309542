//! Writes steps of the Rust of docs/src, one a line, for a program that replays them; and by the rules alone those that serve a
//! line, which the Rust does otherwise, and those that are refused.

use std::convert::Infallible;
use std::process::ExitCode;

use oracle::accesses::Access;
use oracle::case::Case;
use oracle::edges;
use oracle::interrupts::{Line, Lines};
use oracle::known;
use oracle::random::Random;
use oracle::recorder::Core;
use oracle::rules::{self, Entry};
use oracle::state::{HIGHEST_COUNT, State};
use oracle::sums;
use tools::options::{Options, Program};

const USAGE: &str = "usage: host/vectors [--seed N] [--count N]";
/// The edges, and the sums as one class more.
const CLASSES: usize = edges::CLASSES.len() + 1;

/// A fair choice of some cases out of as many as come.
struct Choice {
    wanted: usize,
    seen: usize,
    cases: Vec<Case>,
}

impl Choice {
    fn new(wanted: usize) -> Choice {
        Choice {
            wanted,
            seen: 0,
            cases: Vec::new(),
        }
    }

    fn offer(&mut self, case: Case, random: &mut Random) {
        if known::cause(&case).is_some() {
            return;
        }
        self.seen += 1;
        if self.cases.len() < self.wanted {
            self.cases.push(case);
        } else {
            let place = random.below(self.seen);
            if place < self.wanted {
                self.cases[place] = case;
            }
        }
    }
}

/// So many random cases of each opcode, then so many of each class of edges and of the sums.
fn chosen(random: &mut Random, of_opcode: usize, of_class: usize) -> Vec<Case> {
    let mut cases = Vec::new();
    for entry in rules::all() {
        let drawn = std::iter::repeat_with(|| Case::random(entry, random));
        cases.extend(
            drawn
                .filter(|case| known::cause(case).is_none())
                .take(of_opcode),
        );
    }
    let mut choices = [(); CLASSES].map(|()| Choice::new(of_class));
    let mut draw = Random::new(random.draw());
    for ((class, _), choice) in edges::CLASSES.into_iter().zip(&mut choices) {
        let Ok(()) = class.each(random, &mut |case| {
            choice.offer(case, &mut draw);
            Ok::<(), Infallible>(())
        });
    }
    let Ok(()) = sums::each(random, &mut |case| {
        choices[CLASSES - 1].offer(case, &mut draw);
        Ok::<(), Infallible>(())
    });
    cases.extend(choices.into_iter().flat_map(|choice| choice.cases));
    cases
}

/// As many as are wanted: of some classes most steps are listed differences, and one more of each opcode comes in turn.
fn enough(mut cases: Vec<Case>, wanted: usize, random: &mut Random) -> Vec<Case> {
    let opcodes: Vec<Entry> = rules::all().collect();
    while cases.len() < wanted {
        let case = Case::random(opcodes[cases.len() % opcodes.len()], random);
        if known::cause(&case).is_none() {
            cases.push(case);
        }
    }
    cases
}

/// What is set of a random state and its opcode.
type Edge = fn(&mut State, &mut u8);

/// Where a step with lines ends or turns over: S, the counter, the cycles, and a byte that is no opcode.
const LINE_EDGES: [Edge; 7] = [
    |state, _| state.stack = 0x00,
    |state, _| state.stack = 0x01,
    |state, _| state.stack = 0x02,
    |state, _| state.counter = 0xFFFF,
    |state, _| state.cycles = HIGHEST_COUNT,
    |state, _| state.cycles = HIGHEST_COUNT + 1,
    |_, opcode| *opcode = 0x02,
];

/// So many random cases of every combination of the levels, the last one of NMI and I, then one of each edge.
fn with_lines(random: &mut Random, of_levels: usize) -> Vec<Case> {
    let opcodes = rules::opcodes();
    let mut edges: Vec<Edge> = vec![|_, _| {}; of_levels];
    edges.extend(LINE_EDGES);
    let mut cases = Vec::new();
    for lines in Lines::all() {
        for mask in [0, State::MASK] {
            for edge in &edges {
                let drawn = std::iter::repeat_with(|| {
                    let mut opcode = random.one_of(&opcodes);
                    let mut case = Case {
                        lines,
                        ..Case::new(random.state())
                    };
                    case.state.status = case.state.status & !State::MASK | mask;
                    case.state.cycles = count(random);
                    edge(&mut case.state, &mut opcode);
                    case.put_code(&[opcode]);
                    case.fill(random);
                    case
                });
                let mut unlisted = drawn.filter(|case| known::cause(case).is_none());
                cases.extend(unlisted.next());
            }
        }
    }
    cases
}

/// A count of cycles to begin with.
fn count(random: &mut Random) -> u64 {
    if random.below(2) == 0 {
        0
    } else {
        random.below(1_000) as u64
    }
}

/// Bytes with their addresses.
type Cells = Vec<(u16, u8)>;

/// How a step ends, by the rules.
enum Ending {
    Refused(u8),
    Served(Line),
    /// The byte at the counter is an opcode, which the Rust makes too.
    Made,
}

impl Ending {
    fn of(case: &Case) -> Ending {
        if case.state.cycles > HIGHEST_COUNT {
            return Ending::Refused(2);
        }
        match (case.lines.due(&case.state), case.entry()) {
            (Some(line), _) => Ending::Served(line),
            (None, Some(_)) => Ending::Made,
            (None, None) => Ending::Refused(3),
        }
    }

    /// The case with no byte but the one at the counter, and those that the step reads.
    fn smallest(&self, case: &Case) -> Case {
        let mut smallest = Case {
            bytes: Vec::new(),
            ..case.clone()
        };
        smallest.put(case.state.counter, case.byte(case.state.counter));
        match self {
            Ending::Refused(_) => smallest,
            Ending::Served(line) => {
                for place in line.vector() {
                    smallest.put(place, case.byte(place));
                }
                smallest
            }
            Ending::Made => case.smallest(),
        }
    }

    /// The state after the step, and what it stored.
    fn after(&self, case: &Case) -> Result<(State, Cells), String> {
        match self {
            Ending::Refused(_) => Ok((case.state, Cells::new())),
            Ending::Served(line) => {
                let service = line.service(&case.state, |address| case.byte(address));
                Ok((service.after, service.pushed.to_vec()))
            }
            Ending::Made => by_the_rust(case),
        }
    }
}

fn by_the_rust(case: &Case) -> Result<(State, Cells), String> {
    let mut core = Core::new(case.memory());
    let after = core
        .step_with(&case.state, case.lines)
        .ok_or(format!("the Rust made no step: {case}"))?;
    let mut stored = Cells::new();
    for access in core.accesses() {
        if let Access::Store(address) = *access {
            stored.push((address, core.bytes()[usize::from(address)]));
        }
    }
    Ok((after, stored))
}

/// A line's half: before the step its opcode, after it its answer, then the levels, the state and the bytes.
fn half(number: u8, lines: Lines, state: &State, cells: &Cells) -> String {
    let cells = cells.iter();
    let cells: String = cells
        .map(|(address, byte)| format!(" {byte:02X}@{address:04X}"))
        .collect();
    format!("{number:02X} {:02X} {state} |{cells}", lines.number())
}

fn line(case: &Case) -> Result<String, String> {
    let ending = Ending::of(case);
    let case = ending.smallest(case);
    let (after, stored) = ending.after(&case)?;
    let (answer, last_nmi) = match ending {
        Ending::Refused(answer) => (answer, case.lines.last_nmi),
        Ending::Served(_) | Ending::Made => (0, case.lines.nmi),
    };
    let lines = Lines {
        last_nmi,
        ..case.lines
    };
    let opcode = case.byte(case.state.counter);
    Ok(format!(
        "{} | {}",
        half(opcode, case.lines, &case.state, &case.bytes),
        half(answer, lines, &after, &stored)
    ))
}

fn write(options: &Options) -> Result<String, String> {
    let mut random = Random::new(options.number("--seed", 6502));
    let wanted = options.number("--count", 4_000) as usize;
    // A half for the opcodes, a half for the edges, and one of each at least.
    let of_opcode = wanted.div_ceil(2 * 151).max(1);
    let of_class = wanted.div_ceil(2 * CLASSES).max(1);
    let cases = chosen(&mut random, of_opcode, of_class);
    let mut cases = enough(cases, wanted, &mut random);
    for case in &mut cases {
        case.state.cycles = count(&mut random);
    }
    // With lines, one of each combination for every 400.
    cases.extend(with_lines(&mut random, wanted.div_ceil(400)));
    let mut text = String::new();
    for case in &cases {
        text += &line(case)?;
        text.push('\n');
    }
    Ok(text)
}

fn vectors(options: &Options) -> ExitCode {
    match write(options) {
        Ok(text) => {
            print!("{text}");
            eprintln!("vectors: {} steps", text.lines().count());
            ExitCode::SUCCESS
        }
        Err(fault) => {
            eprintln!("vectors: {fault}");
            ExitCode::FAILURE
        }
    }
}

fn main() -> ExitCode {
    Program::new("vectors", USAGE, &["--seed", "--count"], &[]).run(vectors)
}
