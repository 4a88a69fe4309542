//! Compares the tapes and Intel HEX with srecord: what srec_cat writes is read by `mos6502_tape_load` and `mos6502_hex_load`, and what
//! `mos6502_tape_punch`, `mos6502_tape_to_hex` and `mos6502_hex_to_tape` write by srec_cat.

mod comparison;
mod fault;
mod hex;
mod spellings;
mod srecord;
mod stretches;
mod table;
mod tape;
mod written;

use std::fs;
use std::path::Path;
use std::process::ExitCode;

use oracle::random::Random;
use tools::options::{Options, Program};

use comparison::{Comparison, PLANTS, Plant};
use fault::Fault;
use srecord::Srecord;
use stretches::KINDS;
use table::Table;

const USAGE: &str = "usage: host/tapes [--seed N] [--images N] [--stretches N] \
    [--plant | --plant-end | --plant-hex | --plant-punch] [ARCHIVE.a]";
/// The files stand here while srecord reads them.
const FOLDER: &str = "target/host/tapes.files";
/// A tape on which the two differ is kept here.
const KEPT: &str = "target/host/differs.tape";

fn compare(comparison: &mut Comparison, images: usize, stretches: usize) -> Result<(), Fault> {
    spellings::compare(&comparison.srecord)?;
    let mut tapes = Table::new("srecord writes", tape::COLUMNS);
    let mut hexes = Table::new("srecord writes HEX", hex::COLUMNS);
    for number in 0..images {
        let place = number % KINDS.len();
        let order = (KINDS[place].make)(&mut comparison.random);
        let name = || format!("image {} ({})", number + 1, KINDS[place].name);
        let is_last = number + 1 == images;
        let counts = comparison.load(&order, is_last);
        tapes.add(place, counts.map_err(|fault| fault.of(&name()))?);
        let counts = comparison.load_hex(&order, is_last);
        hexes.add(place, counts.map_err(|fault| fault.of(&name()))?);
    }
    tapes.print();
    hexes.print();
    let (mut records, mut bytes, mut number_for_sum) = (0, 0, 0);
    for number in 0..stretches {
        let stretch = stretches::to_punch(&mut comparison.random, number);
        let name = || format!("punch {:04X} {:04X}", stretch.start, stretch.end - 1);
        let punched = comparison.punch(&stretch, number + 1 == stretches);
        let punched = punched.map_err(|fault| fault.of(&name()))?;
        records += punched;
        bytes += stretch.len();
        number_for_sum += usize::from(punched > 255);
    }
    println!(
        "{stretches} stretches punched, {records} records, {bytes} bytes: srecord reads them all, and writes the same text, \
         save the number for the sum in {number_for_sum}"
    );
    println!(
        "moved to HEX: srecord reads it and writes it the same, and moved back it is the tape"
    );
    println!(
        "{} tapes and as much HEX: the bytes are equal",
        images + stretches
    );
    Ok(())
}

fn compare_all(options: &Options) -> Result<(), Fault> {
    let seed = options.number("--seed", 6502);
    let images = options.number("--images", 420) as usize;
    let stretches = options.number("--stretches", 300) as usize;
    println!(
        "seed {seed}, images {images}, stretches {stretches}{}",
        options.remark()
    );
    // An earlier run may have kept one, which says nothing of this run.
    let _ = fs::remove_file(KEPT);
    let folder = Path::new(FOLDER);
    let mut comparison = Comparison {
        random: Random::new(seed),
        hex_random: Random::new(seed + 1),
        srecord: Srecord::new(folder)?,
        plant: options.plant(&PLANTS).unwrap_or(Plant::None),
    };
    let result = compare(&mut comparison, images, stretches);
    let removed = fs::remove_dir_all(folder);
    result?;
    removed.map_err(|fault| Fault::Failed(format!("{FOLDER}: {fault}")))
}

fn tapes(options: &Options) -> ExitCode {
    match compare_all(options) {
        Ok(()) => ExitCode::SUCCESS,
        Err(Fault::Differs(what, tape)) => {
            match fs::write(KEPT, tape) {
                Ok(()) => println!("the tapes differ: {what}; the tape is kept as {KEPT}"),
                Err(fault) => println!("the tapes differ: {what}; {KEPT}: {fault}"),
            }
            ExitCode::FAILURE
        }
        Err(Fault::Failed(what)) => {
            eprintln!("tapes: {what}");
            ExitCode::from(2)
        }
    }
}

fn main() -> ExitCode {
    let marks = PLANTS.map(|(mark, _)| mark);
    Program::new(
        "tapes",
        USAGE,
        &["--seed", "--images", "--stretches"],
        &marks,
    )
    .run(tapes)
}
