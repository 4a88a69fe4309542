//! Asks the program report for its lines on random images, and compares each with the line by the Rust of docs/src.

mod lines;

use std::collections::BTreeSet;
use std::fs::{self, File};
use std::io::{self, BufRead, BufReader, Read};
use std::path::{Path, PathBuf};
use std::process::{Command, ExitCode, Stdio};
use std::thread;

use oracle::images::{self, KINDS};
use oracle::known;
use oracle::random::Random;
use oracle::rules;
use tools::options::{Options, Program};

use lines::Report;

const USAGE: &str = "usage: host/report [--seed N] [--images N] [--plant]";
/// The images stand here while the program reads them.
const FOLDER: &str = "target/host/images";
/// An image on which the lines differ is kept here.
const KEPT: &str = "target/host/differs.img";
/// So many images go to one call of the program. It is no multiple of a dozen, so that the first of them, which comes
/// on standard input, is not always of the same kind.
const BATCH: usize = 500;
/// Where the gate's images and lines are.
const STORED: &str = "crates/program_report";

enum Fault {
    Differs(String),
    /// There are no lines to compare: the exit status and why.
    NoLines(u8, String),
}

fn differs(what: &str, rust: &str, report: &str) -> Fault {
    Fault::Differs(format!(
        "{what}\n  the Rust: {rust:?}\n  report:   {report:?}"
    ))
}

/// A file that is missing, or that cannot be written.
fn at(path: &Path) -> impl FnOnce(io::Error) -> Fault {
    move |fault| Fault::NoLines(2, format!("{}: {fault}", path.display()))
}

/// What the images of one kind came to.
#[derive(Default)]
struct Row {
    images: usize,
    by_reason: [usize; 4],
    steps: usize,
}

impl Row {
    fn add(&mut self, report: &Report) {
        self.images += 1;
        self.by_reason[usize::from(report.reason)] += 1;
        self.steps += report.opcodes.len();
    }

    fn print(&self, name: &str) {
        let [all, refused, _, stopped] = self.by_reason;
        println!(
            "{name:20}{:8}{stopped:14}{all:18}{refused:17}{:10}",
            self.images, self.steps
        );
    }
}

struct Comparison {
    random: Random,
    rows: [Row; KINDS.len()],
    all: Row,
    lines: BTreeSet<String>,
    /// The steps by opcode.
    made: [u64; 256],
    /// The images with steps that were put right, and these steps, by what is listed.
    listed: [(usize, usize); known::ALL.len()],
}

impl Comparison {
    fn new(seed: u64) -> Comparison {
        Comparison {
            random: Random::new(seed),
            rows: Default::default(),
            all: Row::default(),
            lines: BTreeSet::new(),
            made: [0; 256],
            listed: [(0, 0); known::ALL.len()],
        }
    }

    /// Makes the image of a number, and gives its file and what the Rust makes of it.
    fn image(&mut self, number: usize) -> Result<(PathBuf, Report), Fault> {
        let place = images::place_of(number);
        let image = (KINDS[place].image)(&mut self.random);
        let report = lines::report(&image).map_err(Fault::Differs)?;
        self.rows[place].add(&report);
        self.all.add(&report);
        for opcode in &report.opcodes {
            self.made[usize::from(*opcode)] += 1;
        }
        for ((images, steps), count) in self.listed.iter_mut().zip(report.listed) {
            *images += usize::from(count > 0);
            *steps += count;
        }
        self.lines.insert(report.line.clone());
        let file = Path::new(FOLDER).join(format!("{number}.img"));
        fs::write(&file, image).map_err(at(&file))?;
        Ok((file, report))
    }

    /// With a planted fault the Rust's last line is spoiled, so that all the others must be equal first.
    fn all(&mut self, images: usize, plant: bool) -> Result<(), Fault> {
        for first in (1..=images).step_by(BATCH) {
            let last = images.min(first + BATCH - 1);
            let batch = (first..=last).map(|number| self.image(number));
            let (files, mut reports): (Vec<PathBuf>, Vec<Report>) =
                batch.collect::<Result<Vec<_>, _>>()?.into_iter().unzip();
            if plant
                && last == images
                && let Some(report) = reports.last_mut()
            {
                report.line.insert(0, '0');
            }
            let Said { lines, status } = ask(&files)?;
            let mut said = lines.split_inclusive('\n');
            for ((number, file), Report { line, .. }) in (first..).zip(&files).zip(&reports) {
                let said = said.next().unwrap_or_default();
                let name = match number == first {
                    true => "-".to_string(),
                    false => file.display().to_string(),
                };
                let line = named(line, &name, files.len());
                if said != line {
                    fs::rename(file, KEPT).map_err(at(file))?;
                    let name = KINDS[images::place_of(number)].name;
                    let what = format!("image {number} ({name}), kept as {KEPT}");
                    return Err(differs(&what, &line, said));
                }
                fs::remove_file(file).map_err(at(file))?;
            }
            if let Some(more) = said.next() {
                return Err(differs("after the last image", "", more));
            }
            // The first that is not 0, and every image here has such a one.
            let expected = reports.first().map_or(0, Report::status);
            if status != expected {
                let [expected, status] = [expected, status].map(|status| status.to_string());
                return Err(differs("the exit status", &expected, &status));
            }
        }
        Ok(())
    }

    fn summary(&self) {
        println!(
            "{:20}{:>8}{:>14}{:>18}{:>17}{:>10}",
            "kind", "images", "stopped by 3", "all 1000 steps", "refused with 1", "steps"
        );
        for (kind, row) in KINDS.iter().zip(&self.rows) {
            row.print(kind.name);
        }
        self.all.print("all");
        let fewest = rules::all().map(|entry| self.made[usize::from(entry.opcode)]);
        println!(
            "each of the 151 opcodes was stepped at least {} times; {} of the lines are different ones",
            fewest.min().unwrap_or(0),
            self.lines.len()
        );
        for ((_, sentence), (images, steps)) in known::ALL.iter().zip(self.listed) {
            println!("listed: {sentence}");
            println!("  put right in the Rust's state at {steps} steps, on {images} images");
        }
        println!("{} images: the lines are equal", self.all.images);
    }
}

/// The line as the program prints it: where several images are named, with the name after it.
fn named(line: &str, name: &str, images: usize) -> String {
    match images {
        0 | 1 => line.to_string(),
        _ => format!("{}  {name}\n", line.trim_end_matches('\n')),
    }
}

/// What a call of the program gave.
struct Said {
    lines: String,
    status: u8,
}

/// Passes on what `run` itself says, and gives the program's sentences.
fn sentences(told: impl Read) -> io::Result<Vec<String>> {
    let mut sentences = Vec::new();
    for line in BufReader::new(told).lines() {
        let line = line?;
        if line.starts_with("run: ") {
            eprintln!("{line}");
        } else {
            sentences.push(line);
        }
    }
    Ok(sentences)
}

/// The program's lines on these files, the first on standard input. Each has a sentence, with its name before it.
fn ask(files: &[PathBuf]) -> Result<Said, Fault> {
    let Some((first, others)) = files.split_first() else {
        return Ok(Said {
            lines: String::new(),
            status: 0,
        });
    };
    let front_door = Path::new("./run");
    let mut child = Command::new(front_door)
        .args(["report", "-"])
        .args(others)
        .stdin(File::open(first).map_err(at(first))?)
        .stdout(Stdio::piped())
        .stderr(Stdio::piped())
        .spawn()
        .map_err(at(front_door))?;
    let told = child.stderr.take().expect("a pipe was asked for");
    let teller = thread::spawn(|| sentences(told));
    let output = child.wait_with_output().map_err(at(front_door))?;
    let told = teller.join().expect("it does not panic");
    let told = told.map_err(at(front_door))?;
    let status = match output.status.code().map(u8::try_from) {
        // The answers, and the run that is still running: the others say that something is missing or was lost.
        Some(Ok(status @ 0..=20)) => status,
        code => {
            let what = format!("./run report: {}: {told:?}", output.status);
            let missing = matches!(code, Some(Ok(66 | 69)));
            return Err(Fault::NoLines(if missing { 2 } else { 1 }, what));
        }
    };
    let names = others.iter().map(|file| file.display().to_string());
    let names = std::iter::once("standard input".to_string()).chain(names);
    for (number, name) in names.enumerate() {
        let sentence = told.get(number).map_or("", String::as_str);
        if !sentence.starts_with(&format!("{name}: ")) {
            return Err(differs("a sentence", &format!("{name}: .."), sentence));
        }
    }
    Ok(Said {
        lines: String::from_utf8_lossy(&output.stdout).into_owned(),
        status,
    })
}

/// The lines that the gate expects on its stored images are the Rust's too.
fn stored() -> Result<usize, Fault> {
    let folder = Path::new(STORED);
    let text = |name| {
        let path = folder.join(name);
        fs::read_to_string(&path).map_err(at(&path))
    };
    let [names, expected] = [text("args")?, text("stdout")?];
    let mut expected = expected.split_inclusive('\n');
    let mut count = 0;
    for name in names.lines() {
        let path = match name {
            "-" => folder.join("stdin"),
            name => folder.join("data").join(name),
        };
        let image = fs::read(&path).map_err(at(&path))?;
        let line = lines::report(&image).map_err(Fault::Differs)?.line;
        let line = named(&line, name, names.lines().count());
        let stored = expected.next().unwrap_or_default();
        if stored != line {
            let what = format!("{}, the line in {STORED}/stdout", path.display());
            return Err(differs(&what, &line, stored));
        }
        count += 1;
    }
    match expected.next() {
        None => Ok(count),
        Some(more) => {
            let what = format!("the end of {STORED}/stdout");
            Err(differs(&what, "", more))
        }
    }
}

fn compare(comparison: &mut Comparison, images: usize, plant: bool) -> Result<(), Fault> {
    let count = stored()?;
    println!("the {count} lines of {STORED}/stdout are the Rust's");
    // An earlier run may have kept one, which says nothing of this run.
    let _ = fs::remove_file(KEPT);
    let folder = Path::new(FOLDER);
    fs::create_dir_all(folder).map_err(at(folder))?;
    let result = comparison.all(images, plant);
    fs::remove_dir_all(folder).map_err(at(folder))?;
    result
}

fn report(options: &Options) -> ExitCode {
    let seed = options.number("--seed", 6502);
    let images = options.number("--images", 2_400);
    println!("seed {seed}, images {images}{}", options.remark());
    let mut comparison = Comparison::new(seed);
    match compare(&mut comparison, images as usize, options.has("--plant")) {
        Ok(()) => {
            comparison.summary();
            ExitCode::SUCCESS
        }
        Err(Fault::Differs(what)) => {
            println!("the lines differ: {what}");
            ExitCode::FAILURE
        }
        Err(Fault::NoLines(status, what)) => {
            eprintln!("report: {what}");
            ExitCode::from(status)
        }
    }
}

fn main() -> ExitCode {
    Program::new("report", USAGE, &["--seed", "--images"], &["--plant"]).run(report)
}
