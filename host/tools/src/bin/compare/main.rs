//! Runs the Rust of docs/src and the port side by side and compares them after every step.

mod by_cycles;
mod counts;
mod fault;
mod idle;
mod pair;
mod part;
mod rows;
mod served;
mod shrink;
mod with_lines;

use std::io::IsTerminal;
use std::process::ExitCode;

use oracle::edges;
use oracle::known;
use oracle::random::Random;
use oracle::rules;
use tools::options::{Options, Program};

use counts::{ByCycles, Calls, Firsts};
use fault::{Fault, PLANTS, Plant};
use pair::Pair;
use part::Part;
use rows::{LineRow, Row, print_listed};

const USAGE: &str = "usage: host/compare [--native] [--seed N] [--steps N] \
                     [--plant | --plant-first | --plant-call | --plant-break | --plant-level | --plant-limit] \
                     [ARCHIVE]";
/// The line of progress is renewed after so many steps.
const STRIDE: u64 = 250_000;

/// The line of progress, at a terminal only; an empty one wipes it out.
fn tell(line: &str) {
    if std::io::stderr().is_terminal() {
        eprint!("\r{line}\x1b[K");
    }
}

fn tell_now_and_then(part: &str, steps: u64, told: &mut u64) {
    if steps - *told >= STRIDE {
        *told = steps;
        tell(&format!("compare: {part}, {steps} steps so far"));
    }
}

struct Comparison {
    random: Random,
    pair: Pair,
    rows: Vec<Row>,
    /// The parts with lines have their own.
    lines: Pair,
    line_rows: Vec<LineRow>,
    told: u64,
}

impl Comparison {
    /// What was made so far, or since an earlier such row.
    fn row(&self, name: &str, since: Option<&Row>) -> Row {
        let mut listed = self.pair.listed.map(|by_opcode| by_opcode.iter().sum());
        let mut steps = self.pair.steps;
        if let Some(row) = since {
            steps -= row.steps;
            for (count, before) in listed.iter_mut().zip(row.listed) {
                *count -= before;
            }
        }
        Row {
            name: name.into(),
            steps,
            listed,
        }
    }

    fn part(
        &mut self,
        name: &str,
        compare: impl FnOnce(&mut Part) -> Result<(), Fault>,
    ) -> Result<(), Fault> {
        let before = self.row(name, None);
        compare(&mut Part {
            pair: &mut self.pair,
            random: &mut self.random,
            progress: &mut |steps| tell_now_and_then(name.trim(), steps, &mut self.told),
        })?;
        self.rows.push(self.row(name, Some(&before)));
        Ok(())
    }

    /// By default 100,000 random states for each of the 151 opcodes and 5 million steps in long runs.
    fn all(&mut self, steps: u64) -> Result<(), Fault> {
        self.part("random states", |part| {
            idle::random_states(part, steps.div_ceil(200))
        })?;
        self.directed_edges()?;
        self.part("all sums", idle::all_sums)?;
        self.part("long runs", |part| idle::long_runs(part, steps.div_ceil(4)))?;
        self.told = 0;
        self.part_with_lines("the same call", |part| {
            with_lines::same_calls(part, steps.div_ceil(20_000))
        })?;
        self.part_with_lines("runs, a step later", |part| {
            with_lines::runs_with_lines(part, steps.div_ceil(20))
        })?;
        self.part_with_lines("runs by cycles", |part| {
            by_cycles::runs_by_cycles(part, steps.div_ceil(20_000))
        })
    }

    /// What was made with lines so far.
    fn counts_with_lines(&self) -> [u64; 5] {
        let Pair { steps, calls, .. } = &self.lines;
        [*steps, calls.nmi, calls.irq, calls.no_room, calls.no_opcode]
    }

    fn part_with_lines(
        &mut self,
        name: &'static str,
        compare: impl FnOnce(&mut Part) -> Result<(), Fault>,
    ) -> Result<(), Fault> {
        let before = self.counts_with_lines();
        let part = format!("with lines, {name}");
        compare(&mut Part {
            pair: &mut self.lines,
            random: &mut self.random,
            progress: &mut |steps| tell_now_and_then(&part, steps, &mut self.told),
        })?;
        let mut counts = self.counts_with_lines();
        for (count, before) in counts.iter_mut().zip(before) {
            *count -= before;
        }
        self.line_rows.push(LineRow { name, counts });
        Ok(())
    }

    /// A row for all of them, then one for each class.
    fn directed_edges(&mut self) -> Result<(), Fault> {
        let place = self.rows.len();
        let before = self.row("", None);
        let mut counts = Random::new(self.random.draw());
        for (class, name) in edges::CLASSES {
            self.part(&format!("  {name}"), |part| {
                idle::directed_edges(part, class, &mut counts)
            })?;
        }
        let all = self.row("directed edges", Some(&before));
        self.rows.insert(place, all);
        Ok(())
    }

    fn summary(&self) {
        let columns = known::ALL.map(|(column, _)| format!("{column:>16}"));
        println!(
            "{:26}{:>10}{:>12}{}",
            "part",
            "steps",
            "equal",
            columns.concat()
        );
        self.rows.iter().for_each(Row::print);
        self.row("all", None).print();
        let fewest = rules::all().map(|entry| self.pair.made[usize::from(entry.opcode)]);
        println!(
            "each of the 151 opcodes was stepped at least {} times",
            fewest.min().unwrap_or(0)
        );
        for ((_, sentence), counts) in known::ALL.iter().zip(self.pair.listed) {
            print_listed(sentence, &counts);
        }
        println!(
            "the Rust's {} reads and {} stores are those of docs/RULES.md, in its order but for JSR's last operand byte",
            self.pair.reads, self.pair.stores
        );
        let Firsts {
            none,
            last,
            uncarried,
        } = self.pair.firsts;
        println!(
            "the address put out first is that of docs/RULES.md: \
             not the final one at {uncarried} steps, the final one at {last}, none at {none}"
        );
        self.summary_with_lines();
    }

    fn summary_with_lines(&self) {
        let [steps, heads @ ..] = LineRow::HEADS;
        let heads = heads.map(|head| format!("{head:>12}"));
        println!("{:26}{steps:>10}{}", "with lines", heads.concat());
        self.line_rows.iter().for_each(LineRow::print);
        let counts = self.counts_with_lines();
        LineRow {
            name: "all with lines",
            counts,
        }
        .print();
        let Calls {
            in_both,
            by_levels,
            by_the_rust,
            alike,
            cleared,
            set,
            by_cycles: ByCycles { answers, over },
            ..
        } = &self.lines.calls;
        println!(
            "{in_both} calls were made in both cores; each of the 16 combinations of IRQ, NMI, its last level and I \
             came at least {} times",
            by_levels.iter().min().unwrap_or(&0)
        );
        println!(
            "listed: the Rust serves a line after the instruction, in the same call and in no cycles: {by_the_rust} calls; \
             the port before the opcode, in a step by itself and 7 cycles"
        );
        print_listed(
            "an instruction clears I while IRQ is low: the Rust serves it one instruction later, the port at once",
            cleared,
        );
        print_listed(
            "an instruction sets I while IRQ is low: the Rust serves it even so, the port does not",
            set,
        );
        println!(
            "after {alike} instructions both served the same line, or neither did, and ended alike but for the 7 cycles"
        );
        let [spent, no_room, no_opcode, too_high] = answers;
        println!(
            "runs by cycles: {spent} answered 0, {no_room} 2, {no_opcode} 3, {too_high} 4; \
             over the limit by 0 to 6 cycles: {over:?}"
        );
    }
}

fn compare(options: &Options) -> ExitCode {
    let seed = options.number("--seed", 6502);
    let steps = options.number("--steps", 20_000_000);
    let plant = options.plant(&PLANTS).unwrap_or(Plant::None);
    println!("seed {seed}, steps {steps}{}", options.remark());
    let mut random = Random::new(seed);
    let memory = random.memory();
    let mut comparison = Comparison {
        random,
        pair: Pair::new(memory.clone(), plant),
        rows: Vec::new(),
        lines: Pair::new(memory, plant),
        line_rows: Vec::new(),
        told: 0,
    };
    let result = comparison.all(steps);
    tell("");
    match result {
        Ok(()) => {
            comparison.summary();
            ExitCode::SUCCESS
        }
        Err(fault) => {
            let (case, what) = shrink::shrunk(fault, plant);
            let with_lines: u64 = comparison.counts_with_lines().iter().sum();
            println!(
                "the cores differ at step {} in {what}",
                comparison.pair.steps + with_lines
            );
            if let Some(case) = case {
                println!("smallest input: {case}");
                println!(
                    "  opcode, counter, A, X, Y, S, status, cycles | byte@address, all other bytes 0 | lines, if not idle"
                );
            }
            ExitCode::FAILURE
        }
    }
}

fn main() -> ExitCode {
    let marks = PLANTS.map(|(mark, _)| mark);
    Program::new("compare", USAGE, &["--seed", "--steps"], &marks).run(compare)
}
