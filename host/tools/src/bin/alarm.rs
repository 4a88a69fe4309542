//! alarm ARCHIVE STEP: counts what the compiler left of the port, and fails where a bound is passed.
//! alarm LOOP WAY STEPS: makes so many steps of a loop in one of the ways, by number, under valgrind, which counts.

use std::process::{Command, ExitCode};

use oracle::loops;
use tools::ways::{self, Way};

/// The functions besides the exported ones: the loop with all that a step does in it. A step by itself has none.
const MOST_FUNCTIONS: usize = 1;
/// The host's instructions a step, by loop and by way: a tenth above what was counted when they were set.
const MOST_INSTRUCTIONS: [[f64; 6]; 3] = [
    [28.0, 28.0, 182.0, 182.0, 186.0, 61.5],
    [40.0, 40.0, 195.0, 195.0, 199.0, 71.5],
    [23.5, 23.5, 179.0, 179.0, 182.5, 47.5],
];
/// The same of the program that touches a device, which is the one after the loops: by the first way, a run, and by the one after
/// all, with the device.
const MOST_TOUCHING: [(usize, f64); 2] = [(0, 30.5), (ways::ALL.len(), 77.0)];
/// The difference of the two leaves out what happens before and after the steps.
const STEPS: [u64; 2] = [20_000, 120_000];

enum Fault {
    /// A tool is missing or failed.
    Tool(String),
    /// So many bounds are passed.
    Passed(usize),
}

/// What a command says, on either output.
fn said(command: &mut Command) -> Result<String, Fault> {
    let name = command.get_program().to_string_lossy().into_owned();
    let output = command
        .output()
        .map_err(|fault| Fault::Tool(format!("{name}: {fault}")))?;
    let said = [output.stdout, output.stderr].concat();
    let said = String::from_utf8_lossy(&said).into_owned();
    if output.status.success() {
        Ok(said)
    } else {
        Err(Fault::Tool(format!("{name}: {}: {said}", output.status)))
    }
}

/// The functions in the two archives that a host cannot call.
fn functions(archives: [&str; 2]) -> Result<Vec<String>, Fault> {
    let said = said(Command::new("nm").arg("--defined-only").args(archives))?;
    let mut exported = 0;
    let mut left = Vec::new();
    for line in said.lines() {
        match line.splitn(3, ' ').collect::<Vec<_>>()[..] {
            [_, "T", name] if name.starts_with("mos6502_") => exported += 1,
            [_, "T" | "t" | "W" | "w", name] => left.push(name.to_string()),
            _ => {}
        }
    }
    if exported == 0 {
        return Err(Fault::Tool(format!(
            "nm {}: no function mos6502_..",
            archives.join(" ")
        )));
    }
    Ok(left)
}

/// The host's instructions in a whole run of this program on the words given.
fn instructions(words: [u64; 3]) -> Result<u64, Fault> {
    let own = std::env::current_exe().map_err(|fault| Fault::Tool(fault.to_string()))?;
    let said = said(
        Command::new("valgrind")
            .args(["--tool=callgrind", "--callgrind-out-file=/dev/null"])
            .arg(own)
            .args(words.map(|word| word.to_string())),
    )?;
    let count = said
        .lines()
        .find_map(|line| line.split("Collected : ").nth(1)?.trim().parse().ok());
    count.ok_or_else(|| Fault::Tool(format!("valgrind told no count: {said}")))
}

fn instructions_a_step(program: usize, way: usize) -> Result<f64, Fault> {
    let [few, many] = STEPS;
    let [program, way] = [program, way].map(|number| number as u64);
    let more = instructions([program, way, many])? - instructions([program, way, few])?;
    Ok(more as f64 / (many - few) as f64)
}

/// A mark where a bound is passed, which is counted.
fn mark_of(is_passed: bool, passed: &mut usize) -> &'static str {
    *passed += usize::from(is_passed);
    if is_passed { "!" } else { "" }
}

fn alarm(archives: [&str; 2]) -> Result<(), Fault> {
    let mut passed = 0;
    let left = functions(archives)?;
    let most = MOST_FUNCTIONS;
    let mark = mark_of(left.len() > most, &mut passed);
    println!(
        "functions besides the exported ones: {} of {most}{mark}: {}",
        left.len(),
        left.join(", ")
    );
    let heads = ways::ALL.map(|(head, _)| format!("{head:>18}"));
    println!("{:20}{}", "instructions a step", heads.concat());
    for ((number, program), bounds) in loops::all().iter().enumerate().zip(MOST_INSTRUCTIONS) {
        print!("{:20}", program.name);
        for (way, most) in bounds.into_iter().enumerate() {
            let count = instructions_a_step(number, way)?;
            let mark = mark_of(count > most, &mut passed);
            print!("{:>18}", format!("{count:.1} of {most}{mark}"));
        }
        println!();
    }
    print!("{:20}", loops::touching().name);
    for (way, most) in MOST_TOUCHING {
        let count = instructions_a_step(loops::all().len(), way)?;
        let mark = mark_of(count > most, &mut passed);
        let (head, _) = every_way()[way];
        print!("{:>24}", format!("{head} {count:.1} of {most}{mark}"));
    }
    println!();
    if passed > 0 {
        return Err(Fault::Passed(passed));
    }
    println!("within the bounds");
    Ok(())
}

/// The ways of the loops, and the one with a device.
fn every_way() -> Vec<(&'static str, Way)> {
    ways::ALL.into_iter().chain([ways::DEVICES]).collect()
}

/// The steps that are counted.
fn make(program: usize, way: usize, steps: u64) -> Result<(), String> {
    let mut programs = loops::all().into_iter().chain([loops::touching()]);
    let mut memory = programs.nth(program).ok_or("no such loop")?.image;
    let (_, way) = *every_way().get(way).ok_or("no such way")?;
    way(&mut memory, steps).map(|_| ())
}

fn main() -> ExitCode {
    let words: Vec<String> = std::env::args().skip(1).collect();
    if let [archive, step] = &words[..] {
        return match alarm([archive, step]) {
            Ok(()) => ExitCode::SUCCESS,
            Err(Fault::Passed(count)) => {
                println!("bounds passed: {count}");
                ExitCode::FAILURE
            }
            Err(Fault::Tool(fault)) => {
                eprintln!("alarm: {fault}");
                ExitCode::from(2)
            }
        };
    }
    let numbers: Vec<u64> = words.iter().filter_map(|word| word.parse().ok()).collect();
    let [program, way, steps] = numbers[..] else {
        eprintln!("usage: host/alarm [ARCHIVE]");
        return ExitCode::from(2);
    };
    match make(program as usize, way as usize, steps) {
        Ok(()) => ExitCode::SUCCESS,
        Err(fault) => {
            eprintln!("alarm: {fault}");
            ExitCode::FAILURE
        }
    }
}
