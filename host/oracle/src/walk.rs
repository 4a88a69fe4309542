//! The Rust step after step on an image, put right where it differs as is listed.

use crate::case::Case;
use crate::known::{self, Known};
use crate::recorder::Core;
use crate::rules;
use crate::state::State;

pub struct Walk {
    pub core: Core,
    pub state: State,
}

/// A step that was made.
pub struct Made {
    pub opcode: u8,
    /// What was put right.
    pub known: Option<Known>,
}

impl Walk {
    #[must_use]
    pub fn new(image: &[u8], state: State) -> Walk {
        Walk {
            core: Core::new(image.to_vec()),
            state,
        }
    }

    /// The next step; none where the byte at the counter is not among the 151. The Rust would execute some of these, so that
    /// they are looked for first.
    pub fn step(&mut self) -> Result<Option<Made>, String> {
        let byte = |number| self.core.bytes()[usize::from(self.state.operand(number))];
        let code = [0, 1, 2].map(byte);
        let opcode = code[0];
        if rules::entry(opcode).is_none() {
            return Ok(None);
        }
        let mut case = Case::new(self.state);
        case.put_code(&code);
        let rust = self.core.step(&self.state);
        let rust = rust.ok_or_else(|| format!("the Rust made no step: {case}"))?;
        self.state = known::demanded(&case, &rust)
            .ok_or_else(|| format!("the Rust did not differ as is listed: {case}"))?;
        let known = known::cause(&case);
        Ok(Some(Made { opcode, known }))
    }
}
