//! How many steps a second the Rust of docs/src and the port make, on the same images in one process. Every run must end in
//! the state and the memory in which the Rust's does; a rate of a core that computes something else would say nothing.

mod fat;

use std::process::ExitCode;
use std::time::Duration;

use oracle::clock::processor_time;
use oracle::loops::{self, Loop};
use oracle::state::{RUST_AND_PORT, byte_difference, difference};
use oracle::timed::{Run, time_rust};
use saxundeer::{Lines, RunAnswer};
use tools::options::{Options, Program};
use tools::states::{machine_of, state_of};
use tools::ways::{self, Way};

use fat::Fat;

const USAGE: &str = "usage: host/rate [--growth] [ARCHIVE]";
const STEPS: u64 = 5_000_000;
const ROUNDS: usize = 25;
const GROWTH_ROUNDS: usize = 3;
/// The Rust's two builds, then the port's ways.
const COLUMNS: usize = 2 + ways::ALL.len();
/// The columns of the Rust, of a run, of the crate's step and of the guarded run.
const RUST: usize = 0;
const RUN: usize = 2;
const CRATE: usize = 5;
const GUARDED: usize = COLUMNS - 1;
/// The part of the Rust's rate that is asked of the crate's step, and of a run's of the guarded run and of a program with a device.
const LEAST_CRATE: f64 = 1.0;
const LEAST_GUARDED: f64 = 0.4;
const LEAST_WITH_DEVICE: f64 = 0.3;

fn time_port(way: Way, image: &[u8], steps: u64) -> Result<Run, String> {
    let mut memory = image.to_vec();
    let begin = processor_time();
    let end = way(&mut memory, steps)?;
    Ok((processor_time() - begin, end, memory))
}

/// That two runs ended alike.
fn same(one: &Run, other: &Run) -> Result<(), String> {
    let differs = difference(RUST_AND_PORT, &one.1, &other.1);
    match differs.or_else(|| byte_difference(RUST_AND_PORT, &one.2, &other.2)) {
        None => Ok(()),
        Some(what) => Err(format!("the end states differ in {what}")),
    }
}

/// One run in each column, all of them ending alike.
fn time_all(fat: &Fat, image: &[u8]) -> Result<[Duration; COLUMNS], String> {
    let rust = time_rust(image, STEPS)?;
    let fat = fat.time(image, STEPS)?;
    same(&rust, &fat)?;
    let mut times = [Duration::ZERO; COLUMNS];
    [times[0], times[1]] = [rust.0, fat.0];
    for (time, (_, way)) in times.iter_mut().skip(2).zip(ways::ALL) {
        let port = time_port(way, image, STEPS)?;
        same(&rust, &port)?;
        *time = port.0;
    }
    Ok(times)
}

/// The program that touches a device, by runs and with the device, both ending as the Rust does.
fn time_touching(image: &[u8]) -> Result<[Duration; 2], String> {
    let rust = time_rust(image, STEPS)?;
    let mut times = [Duration::ZERO; 2];
    for (time, way) in times.iter_mut().zip([ways::by_run, ways::DEVICES.1]) {
        let port = time_port(way, image, STEPS)?;
        same(&rust, &port)?;
        *time = port.0;
    }
    Ok(times)
}

/// The shorter of the times, column by column.
fn keep_best<const N: usize>(best: &mut [Duration; N], times: [Duration; N]) {
    for (best, time) in best.iter_mut().zip(times) {
        *best = time.min(*best);
    }
}

fn rate_of(time: Duration) -> f64 {
    STEPS as f64 / time.as_secs_f64() / 1e6
}

/// The rate of a time as a part of another's, with a mark where it is less than is asked for.
fn part_of(other: Duration, time: Duration, least: f64) -> String {
    let part = other.as_secs_f64() / time.as_secs_f64();
    format!("{part:.3}{}", if part < least { "!" } else { "" })
}

/// A line with the rates of one column as parts of another's, loop by loop.
fn parts(heads: &str, [other, column]: [usize; 2], least: f64, best: &[[Duration; COLUMNS]; 3]) {
    print!("{heads}:");
    for (program, best) in loops::all().iter().zip(best) {
        let part = part_of(best[other], best[column], least);
        print!(" {} {part};", program.name);
    }
    println!(" at least {least} is asked for, and ! marks less.");
}

fn measure() -> Result<(), String> {
    let fat = Fat::load()?;
    let loops = loops::all();
    let touching = loops::touching();
    let mut best = [[Duration::MAX; COLUMNS]; 3];
    let mut best_touching = [Duration::MAX; 2];
    for _ in 0..ROUNDS {
        for (program, best) in loops.iter().zip(&mut best) {
            let times = time_all(&fat, &program.image);
            keep_best(best, times.map_err(|fault| fault_in(program, &fault))?);
        }
        let times = time_touching(&touching.image);
        keep_best(
            &mut best_touching,
            times.map_err(|fault| fault_in(&touching, &fault))?,
        );
    }
    let heads = ways::ALL.map(|(head, _)| head);
    print!("{:14}{:>10}{:>10}", "M steps/s", "Rust", "lto=fat");
    println!(
        "{}",
        heads
            .map(|head| format!("{head:>10}{:>10}", "/Rust"))
            .concat()
    );
    for (program, best) in loops.iter().zip(&best) {
        let [rust, fat, port @ ..] = best.map(rate_of);
        print!("{:14}{rust:10.1}{fat:10.1}", program.name);
        println!(
            "{}",
            port.map(|rate| format!("{rate:10.1}{:10.2}", rate / rust))
                .concat()
        );
    }
    parts("crate / Rust", [RUST, CRATE], LEAST_CRATE, &best);
    parts("guarded / run", [RUN, GUARDED], LEAST_GUARDED, &best);
    let [run, devices] = best_touching;
    println!(
        "{}, touched every hundred steps: run {:.1}, devices {:.1}; devices / run: {}; at least {LEAST_WITH_DEVICE} is asked for.",
        touching.name,
        rate_of(run),
        rate_of(devices),
        part_of(run, devices, LEAST_WITH_DEVICE)
    );
    println!(
        "{STEPS} steps a run, the best of {ROUNDS} runs by processor time; the end states were equal after each."
    );
    Ok(())
}

fn fault_in(program: &Loop, fault: &str) -> String {
    format!("{}: {fault}", program.name)
}

/// One long run, which must end as the parts do.
fn time_long(image: &[u8], steps: u64) -> Result<Run, String> {
    let mut memory = image.to_vec();
    let begin = processor_time();
    match saxundeer::long_run(machine_of(&loops::START), steps, Lines::IDLE, &mut memory) {
        RunAnswer::Made(progress) if progress.steps == steps => {
            let time = processor_time() - begin;
            Ok((time, state_of(&progress.machine), memory))
        }
        other => Err(format!("the long run answered {other:?}")),
    }
}

/// The best times of so many steps in parts of a million, and in one long run.
fn best_of_growth(image: &[u8], steps: u64) -> Result<[f64; 2], String> {
    let mut best = [Duration::MAX; 2];
    for _ in 0..GROWTH_ROUNDS {
        let parts = time_port(ways::by_run, image, steps)?;
        let whole = time_long(image, steps)?;
        same(&parts, &whole)?;
        best = [best[0].min(parts.0), best[1].min(whole.0)];
    }
    Ok(best.map(|time| time.as_secs_f64()))
}

/// The time of more and more steps.
fn growth() -> Result<(), String> {
    println!(
        "{:14}{:>12}{:>12}{:>16}{:>14}",
        "loop", "steps", "parts, s", "parts, ns/step", "one run, s"
    );
    for program in loops::all() {
        for steps in [1, 10, 100, 1_000].map(|millions| millions * 1_000_000) {
            let [parts, whole] = best_of_growth(&program.image, steps)
                .map_err(|fault| fault_in(&program, &fault))?;
            println!(
                "{:14}{steps:12}{parts:12.4}{:16.2}{whole:14.4}",
                program.name,
                parts * 1e9 / steps as f64
            );
        }
    }
    println!(
        "the best of {GROWTH_ROUNDS} runs by processor time; the end states of the two were equal after each."
    );
    Ok(())
}

fn rate(options: &Options) -> ExitCode {
    let measured = if options.has("--growth") {
        growth()
    } else {
        measure()
    };
    match measured {
        Ok(()) => ExitCode::SUCCESS,
        Err(fault) => {
            eprintln!("rate: {fault}");
            ExitCode::FAILURE
        }
    }
}

fn main() -> ExitCode {
    Program::new("rate", USAGE, &[], &["--growth"]).run(rate)
}
