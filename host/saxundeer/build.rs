//! Links the proved archives of archives.txt: those that are always linked, and those of the features that are asked for. They
//! stand in target/staticlib of the repository, those for Arm in its folder aarch64. What is missing there, or is of another version
//! than the package, is proved and built first. Or SAXUNDEER_ARCHIVE names the archive of the runs, and the others stand beside
//! that; a relative path counts from the folder in which cargo is called. An archive that fits is taken as it is: to follow a
//! change of the core, run `tools/build`.

use std::env;
use std::fs::{self, OpenOptions};
use std::io::{BufRead, BufReader, Write};
use std::path::{Path, PathBuf};
use std::process::{Command, Stdio};

const ARCHIVES: &str = include_str!("archives.txt");
/// The part whose archive SAXUNDEER_ARCHIVE names.
const NAMED: &str = "run";
/// The machines for which there are archives, each with its number in an ELF file.
const MACHINES: [(&str, u16); 2] = [("x86_64", 62), ("aarch64", 183)];

/// A line of archives.txt.
struct Archive<'a> {
    part: &'a str,
    library: &'a str,
    feature: &'a str,
    version: &'a str,
}

fn main() {
    println!("cargo::rerun-if-env-changed=SAXUNDEER_ARCHIVE");
    println!("cargo::rerun-if-changed=build.rs");
    println!("cargo::rerun-if-changed=archives.txt");
    if let Err(fault) = link_all() {
        println!("cargo::error={fault}");
    }
}

fn link_all() -> Result<(), String> {
    let machine = machine()?;
    let named = named()?;
    for line in ARCHIVES.lines().filter(|line| !line.starts_with('#')) {
        let archive = Archive::from_line(line)?;
        if !archive.is_asked_for() {
            continue;
        }
        let path = match &named {
            Some(named) => archive.beside(named, &machine)?,
            None => archive.of_the_repository(&machine)?,
        };
        println!("cargo::rerun-if-changed={}", path.display());
        let folder = path.parent().unwrap_or(&path);
        println!("cargo::rustc-link-search=native={}", folder.display());
        println!("cargo::rustc-link-lib=static={}", archive.library);
    }
    Ok(())
}

/// The machine that is built for, if there are archives for it. They are compiled for one system, and for pointers and a length
/// of 64 bits.
fn machine() -> Result<String, String> {
    let target = |what| env::var(format!("CARGO_CFG_TARGET_{what}")).unwrap_or_default();
    let machine = target("ARCH");
    let rest = ["OS", "POINTER_WIDTH", "ENDIAN"].map(target);
    let is_known = MACHINES.iter().any(|(known, _)| *known == machine);
    if is_known && rest == ["linux", "64", "little"] {
        return Ok(machine);
    }
    Err(format!(
        "there is no proved archive for {}: build for Linux on x86-64 or Arm, as with --target x86_64-unknown-linux-gnu or \
         aarch64-unknown-linux-gnu",
        env::var("TARGET").unwrap_or_default()
    ))
}

/// What SAXUNDEER_ARCHIVE names, as a whole path: the linker does not start in the folder of this program, and neither did cargo,
/// which leaves the folder in which it was called in PWD.
fn named() -> Result<Option<PathBuf>, String> {
    let Some(named) = env::var_os("SAXUNDEER_ARCHIVE").filter(|named| !named.is_empty()) else {
        return Ok(None);
    };
    let named = PathBuf::from(named);
    if named.is_absolute() {
        return Ok(Some(named));
    }
    println!("cargo::rerun-if-env-changed=PWD");
    match env::var_os("PWD") {
        Some(folder) => Ok(Some(Path::new(&folder).join(named))),
        None => Err(format!(
            "SAXUNDEER_ARCHIVE is {}, and no variable PWD says in which folder: name the whole path",
            named.display()
        )),
    }
}

impl<'a> Archive<'a> {
    fn from_line(line: &'a str) -> Result<Archive<'a>, String> {
        match line.split_whitespace().collect::<Vec<_>>()[..] {
            [part, library, feature, version] => Ok(Archive {
                part,
                library,
                feature,
                version,
            }),
            _ => Err(format!("archives.txt: {line}")),
        }
    }

    fn is_asked_for(&self) -> bool {
        let feature = format!("CARGO_FEATURE_{}", self.feature.to_uppercase());
        self.feature == "always" || env::var_os(feature).is_some()
    }

    fn file_name(&self) -> String {
        format!("lib{}.a", self.library)
    }

    /// Why an archive cannot be linked, if it cannot: the words that follow on its name.
    fn fault(&self, path: &Path, machine: &str) -> Option<String> {
        let Ok(bytes) = fs::read(path) else {
            return Some("is missing".into());
        };
        let Some(built_for) = machine_of(&bytes) else {
            return Some("is no archive of machine code".into());
        };
        let number = MACHINES.iter().find(|(known, _)| *known == machine);
        if number.map(|(_, number)| *number) != Some(built_for) {
            return Some(format!("is for another machine than {machine}"));
        }
        let (library, version) = (self.library, self.version);
        let symbol = format!("{library}_version_{version}_run_rt_staticlib_{library}");
        let has_it = symbols_of(&bytes).any(|listed| listed == symbol.as_bytes());
        (!has_it).then(|| format!("is of another version than this package, which needs {version}"))
    }

    /// The archive beside the one that is named, or that one itself.
    fn beside(&self, named: &Path, machine: &str) -> Result<PathBuf, String> {
        let path = match self.part {
            NAMED => named.to_path_buf(),
            _ => named.with_file_name(self.file_name()),
        };
        let fault = match path.ends_with(self.file_name()) {
            true => self.fault(&path, machine),
            false => Some(format!("is not called {}", self.file_name())),
        };
        match fault {
            None => Ok(path),
            Some(fault) => Err(format!(
                "{} {fault}. SAXUNDEER_ARCHIVE names libmos6502.a, and beside it stand the others, all for {machine}, as `{}` \
                 writes this one. Without that variable they are proved and built here",
                path.display(),
                self.command(machine).join(" ")
            )),
        }
    }

    /// The archive of the repository, which is proved and built if none is there that fits.
    fn of_the_repository(&self, machine: &str) -> Result<PathBuf, String> {
        let root = Path::new(env!("CARGO_MANIFEST_DIR"))
            .ancestors()
            .nth(2)
            .ok_or("the package is not in its repository")?;
        let folder = root.join("target/staticlib");
        let path = match machine {
            "x86_64" => folder.join(self.file_name()),
            _ => folder.join(machine).join(self.file_name()),
        };
        let Some(fault) = self.fault(&path, machine) else {
            return Ok(path);
        };
        let command = self.command(machine);
        say(&format!(
            "{} {fault}: `{}` proves and builds it, which may take minutes",
            path.display(),
            command.join(" ")
        ));
        let said = run(&command, root);
        match self.fault(&path, machine) {
            None => Ok(path),
            Some(fault) => Err(format!(
                "{} {fault}, and `{}`, which proves and builds it with the Rattle toolchain, said: {}. Where there is no such \
                 toolchain, SAXUNDEER_ARCHIVE names libmos6502.a, with the others beside it",
                path.display(),
                command.join(" "),
                said.unwrap_or_else(|fault| fault)
            )),
        }
    }

    /// The command that proves and builds it, from the root of the repository.
    fn command(&self, machine: &str) -> Vec<String> {
        let words = match machine {
            "x86_64" => vec!["tools/build", self.library],
            _ => vec!["host/native-archive", self.library, machine],
        };
        words.into_iter().map(String::from).collect()
    }
}

/// The number of the machine in the first ELF file of an archive, if there is one of 64 bits with the low byte first.
fn machine_of(archive: &[u8]) -> Option<u16> {
    const BEFORE_MACHINE: usize = 18;
    if !archive.starts_with(b"!<arch>\n") {
        return None;
    }
    let start = archive.windows(6).position(|at| at == b"\x7FELF\x02\x01")?;
    let bytes = archive.get(start + BEFORE_MACHINE..start + BEFORE_MACHINE + 2)?;
    Some(u16::from_le_bytes(bytes.try_into().ok()?))
}

/// The symbols of an archive, as its first member lists them for the linker: their number, a place for each, and their names.
fn symbols_of(archive: &[u8]) -> impl Iterator<Item = &[u8]> {
    const BEFORE_LIST: usize = 68;
    let list = archive.get(BEFORE_LIST..).unwrap_or_default();
    let (count, rest) = list.split_first_chunk().unwrap_or((&[0; 4], &[]));
    let count = u32::from_be_bytes(*count) as usize;
    let names = rest.get(4 * count..).unwrap_or_default();
    names.split(|byte| *byte == 0).take(count)
}

/// Runs a command that proves, says on the way what that says, and gives the last of it.
fn run(command: &[String], root: &Path) -> Result<String, String> {
    // `run` takes the same lock, so that no two prove in one target/ at once.
    let mut child = Command::new("sh")
        .args(["-c", "exec flock crates.txt \"$@\" 2>&1", "sh"])
        .args(command)
        .current_dir(root)
        .stdin(Stdio::null())
        .stdout(Stdio::piped())
        .spawn()
        .map_err(|fault| fault.to_string())?;
    let mut last = String::new();
    let output = child.stdout.take().into_iter().map(BufReader::new);
    for line in output.flat_map(BufRead::lines).map_while(Result::ok) {
        if line.starts_with("rt: ") {
            say(&line);
        } else {
            eprintln!("{line}");
        }
        last = line;
    }
    child.wait().map_err(|fault| fault.to_string())?;
    Ok(last)
}

/// Says what is being done. Cargo keeps what a build script writes and shows it only with -vv, so that it goes to the terminal too,
/// if there is one.
fn say(sentence: &str) {
    eprintln!("saxundeer: {sentence}");
    if let Ok(mut terminal) = OpenOptions::new().write(true).open("/dev/tty") {
        // Cargo's own line of progress stands there.
        let _ = write!(terminal, "\r\x1B[Ksaxundeer: {sentence}\n");
    }
}
