//! The line that docs/RULES.md demands of the program report, by the Rust.

use oracle::images::SIZE;
use oracle::known;
use oracle::loops;
use oracle::walk::Walk;

/// The most steps.
const BOUND: usize = 1_000;

/// What the rules have the program say of an image.
pub struct Report {
    pub reason: u8,
    /// The opcodes of the steps made.
    pub opcodes: Vec<u8>,
    /// At so many steps the Rust ended otherwise than the rules demand, by what is listed, and that was put right.
    pub listed: [usize; known::ALL.len()],
    /// With the LF at its end.
    pub line: String,
}

impl Report {
    /// The exit status of the program on this image alone, where no stop address is said.
    pub fn status(&self) -> u8 {
        if self.reason == 0 { 20 } else { self.reason }
    }
}

/// The Rust's memory cannot be of another length: there the line is the rules' alone.
pub fn report(image: &[u8]) -> Result<Report, String> {
    let mut opcodes = Vec::with_capacity(BOUND);
    let mut listed = [0; known::ALL.len()];
    if image.len() != SIZE {
        return Ok(Report {
            reason: 1,
            opcodes,
            listed,
            line: "1\n".into(),
        });
    }
    let mut walk = Walk::new(image, loops::start_of(image));
    let reason = loop {
        if opcodes.len() == BOUND {
            break 0;
        }
        let Some(made) = walk.step()? else {
            break 3;
        };
        if let Some(known) = made.known {
            listed[known as usize] += 1;
        }
        opcodes.push(made.opcode);
    };
    let line = format!(
        "{reason} {} {} {}\n",
        opcodes.len(),
        walk.state.cycles,
        walk.state.registers()
    );
    Ok(Report {
        reason,
        opcodes,
        listed,
        line,
    })
}
