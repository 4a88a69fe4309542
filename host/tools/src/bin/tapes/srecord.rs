//! srec_cat, the command of srecord, on files below one folder.

use std::ffi::OsString;
use std::fs;
use std::io;
use std::ops::Range;
use std::path::{Path, PathBuf};
use std::process::{Command, Output};

const COMMAND: &str = "srec_cat";

/// What srecord reads and writes.
#[derive(Clone, Copy, PartialEq, Eq)]
pub enum Format {
    Tape,
    Hex,
}

impl Format {
    fn option(self) -> &'static str {
        match self {
            Format::Tape => "-mos-technologies",
            Format::Hex => "-intel",
        }
    }
}

/// There is nothing to compare: a file or the command failed.
pub struct Failed(pub String);

fn at(path: &Path) -> impl FnOnce(io::Error) -> Failed {
    move |fault| Failed(format!("{}: {fault}", path.display()))
}

/// What srecord made of a text.
pub enum Read {
    Bytes(Vec<u8>),
    Refused(String),
}

#[derive(Clone, Copy, PartialEq, Eq)]
pub enum LineEnd {
    /// What srecord writes where nothing else is asked for.
    Lf,
    CrLf,
    Cr,
}

impl LineEnd {
    pub fn text(self) -> &'static str {
        match self {
            LineEnd::Lf => "\n",
            LineEnd::CrLf => "\r\n",
            LineEnd::Cr => "\r",
        }
    }

    fn name(self) -> &'static str {
        match self {
            LineEnd::Lf => "newline",
            LineEnd::CrLf => "carriage_return_line_feed",
            LineEnd::Cr => "carriage_return",
        }
    }
}

/// How srecord is asked to write a text.
#[derive(Clone, Copy)]
pub struct Spelling {
    pub line_end: LineEnd,
    /// The bytes of a record: srecord's own choice where it is not given.
    pub size: Option<u8>,
    /// Without it srecord also begins a record wherever a block of its own ends.
    pub packed: bool,
}

pub const PLAIN: Spelling = Spelling {
    line_end: LineEnd::Lf,
    size: None,
    packed: false,
};

/// As a stretch is punched.
pub const PUNCHED: Spelling = Spelling {
    line_end: LineEnd::CrLf,
    size: Some(24),
    packed: true,
};

pub struct Srecord {
    folder: PathBuf,
}

impl Srecord {
    pub fn new(folder: &Path) -> Result<Srecord, Failed> {
        fs::create_dir_all(folder).map_err(at(folder))?;
        Ok(Srecord {
            folder: folder.to_path_buf(),
        })
    }

    fn put(&self, name: &str, bytes: &[u8]) -> Result<OsString, Failed> {
        let path = self.folder.join(name);
        fs::write(&path, bytes).map_err(at(&path))?;
        Ok(path.into())
    }

    fn run(&self, arguments: &[OsString]) -> Result<Output, Failed> {
        Command::new(COMMAND)
            .args(arguments)
            .output()
            .map_err(at(Path::new(COMMAND)))
    }

    /// The file that it was asked for. One that an earlier call wrote must not be taken for it.
    fn written(&self, mut arguments: Vec<OsString>, format: &[&str]) -> Result<Read, Failed> {
        let path = self.folder.join("out");
        if path.exists() {
            fs::remove_file(&path).map_err(at(&path))?;
        }
        arguments.extend(["-o".into(), path.clone().into()]);
        arguments.extend(format.iter().map(OsString::from));
        let output = self.run(&arguments)?;
        if output.status.success() {
            fs::read(&path).map_err(at(&path)).map(Read::Bytes)
        } else {
            let said = String::from_utf8_lossy(&output.stderr);
            match output.status.code() {
                Some(_) => Ok(Read::Refused(said.trim().to_string())),
                None => Err(Failed(format!("{COMMAND}: {}", output.status))),
            }
        }
    }

    /// A text of some stretches of an image, or of all of it where there are none, with further options for its format.
    fn text(
        &self,
        image: &[u8],
        stretches: &[Range<usize>],
        spelling: Spelling,
        format: &[&str],
    ) -> Result<Vec<u8>, Failed> {
        let mut arguments = vec![self.put("image", image)?, "-binary".into()];
        if !stretches.is_empty() {
            arguments.push("-crop".into());
        }
        let ends = stretches.iter().flat_map(|range| [range.start, range.end]);
        arguments.extend(ends.map(|end| end.to_string().into()));
        arguments.push(format!("-line-termination={}", spelling.line_end.name()).into());
        if let Some(size) = spelling.size {
            arguments.push(format!("-output-block-size={size}").into());
        }
        if spelling.packed {
            arguments.push("-output-block-packing".into());
        }
        match self.written(arguments, format)? {
            Read::Bytes(text) => Ok(text),
            Read::Refused(why) => Err(Failed(format!("{COMMAND} writes no text: {why}"))),
        }
    }

    pub fn tape(
        &self,
        image: &[u8],
        stretches: &[Range<usize>],
        spelling: Spelling,
    ) -> Result<Vec<u8>, Failed> {
        self.text(image, stretches, spelling, &[Format::Tape.option()])
    }

    /// HEX with an address of so many bytes: of the types 00 and 01 alone where they are 2. It may name where to start.
    pub fn hex(
        &self,
        image: &[u8],
        stretches: &[Range<usize>],
        spelling: Spelling,
        address_bytes: u8,
        start: Option<u16>,
    ) -> Result<Vec<u8>, Failed> {
        let length = format!("-address-length={address_bytes}");
        let mut format = vec![Format::Hex.option(), &length];
        let start = start.map(|start| format!("-execution-start-address={start}"));
        format.extend(start.as_deref());
        self.text(image, stretches, spelling, &format)
    }

    /// A memory with a text laid over it, all of it by srecord: it takes out of the memory what the text has.
    pub fn laid(&self, format: Format, text: &[u8], memory: &[u8]) -> Result<Read, Failed> {
        let text = self.put("text", text)?;
        let memory = self.put("memory", memory)?;
        let arguments = vec![
            text.clone(),
            format.option().into(),
            memory,
            "-binary".into(),
            "-exclude".into(),
            "-within".into(),
            text,
            format.option().into(),
        ];
        self.written(arguments, &["-binary"])
    }

    /// The bytes of a text from an address on, up to its last one, 00 where it has none.
    pub fn bytes(&self, format: Format, text: &[u8], from: usize) -> Result<Read, Failed> {
        let arguments = vec![
            self.put("text", text)?,
            format.option().into(),
            "-offset".into(),
            format!("-{from}").into(),
        ];
        self.written(arguments, &["-binary"])
    }
}
