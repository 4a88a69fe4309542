//! The words of a command's line: `--name N` with a decimal number, and `--name`.

use std::collections::BTreeMap;
use std::process::ExitCode;

/// What a program is called, its usage line, its options with a number, and those without.
pub struct Program<'a> {
    name: &'a str,
    usage: &'a str,
    numbers: &'a [&'a str],
    marks: &'a [&'a str],
}

pub struct Options {
    numbers: BTreeMap<String, u64>,
    marks: Vec<String>,
}

impl<'a> Program<'a> {
    #[must_use]
    pub fn new(
        name: &'a str,
        usage: &'a str,
        numbers: &'a [&'a str],
        marks: &'a [&'a str],
    ) -> Program<'a> {
        Program {
            name,
            usage,
            numbers,
            marks,
        }
    }

    /// Runs it on the options that were given. Where one is wrong that is said, and the exit status is 2.
    pub fn run(&self, run: impl FnOnce(&Options) -> ExitCode) -> ExitCode {
        match self.options(std::env::args().skip(1)) {
            Ok(options) => run(&options),
            Err(fault) => {
                eprintln!("{}: {fault}\n{}", self.name, self.usage);
                ExitCode::from(2)
            }
        }
    }

    fn options(&self, mut words: impl Iterator<Item = String>) -> Result<Options, String> {
        let mut options = Options {
            numbers: BTreeMap::new(),
            marks: Vec::new(),
        };
        while let Some(name) = words.next() {
            if self.marks.contains(&name.as_str()) {
                options.marks.push(name);
            } else if self.numbers.contains(&name.as_str()) {
                let text = words.next().unwrap_or_default();
                let number = text
                    .parse()
                    .map_err(|_| format!("{name} '{text}': not a number"))?;
                options.numbers.insert(name, number);
            } else {
                return Err(format!("'{name}': no such option"));
            }
        }
        Ok(options)
    }
}

impl Options {
    #[must_use]
    pub fn number(&self, name: &str, default: u64) -> u64 {
        self.numbers.get(name).copied().unwrap_or(default)
    }

    #[must_use]
    pub fn has(&self, mark: &str) -> bool {
        self.marks.iter().any(|given| given == mark)
    }

    /// The fault that is to be planted, of those that the marks ask for.
    pub fn plant<Plant: Copy>(&self, plants: &[(&str, Plant)]) -> Option<Plant> {
        let asked = plants.iter().find(|(mark, _)| self.has(mark));
        asked.map(|(_, plant)| *plant)
    }

    /// What is said of a planted fault behind the other options.
    #[must_use]
    pub fn remark(&self) -> &'static str {
        if self.marks.iter().any(|mark| mark.starts_with("--plant")) {
            ", with a planted fault"
        } else {
            ""
        }
    }
}
