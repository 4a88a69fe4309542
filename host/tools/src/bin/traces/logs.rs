//! The logs that P10 of docs/RULES.md speaks of, by the Rust.

use oracle::accesses::Access;
use oracle::known::Known;
use oracle::recorder::Core;
use oracle::state::{HIGHEST_COUNT, State};
use oracle::walk::Walk;

/// The line of a state, with its LF.
pub fn line_of(state: &State) -> String {
    format!("{} {}\n", state.cycles, state.registers())
}

/// The state whose line this is, with its LF; none where there is no such state.
pub fn state_of(line: &[u8]) -> Option<State> {
    let text = std::str::from_utf8(line).ok()?.strip_suffix('\n')?;
    let fields: Vec<&str> = text.split(' ').collect();
    let [cycles, counter, registers @ ..] = fields.as_slice() else {
        return None;
    };
    let registers = registers.iter().map(|field| u8::from_str_radix(field, 16));
    let registers: Vec<u8> = registers.collect::<Result<_, _>>().ok()?;
    let [accumulator, x, y, stack, status] = registers[..] else {
        return None;
    };
    let state = State {
        counter: u16::from_str_radix(counter, 16).ok()?,
        accumulator,
        x,
        y,
        stack,
        status,
        cycles: cycles.parse().ok()?,
    };
    // Whatever else these readers take, as small digits or a status without bit 5, is not what would be printed.
    (line_of(&state).as_bytes() == line).then_some(state)
}

/// The lines of the states that the Rust goes through, put right where it differs as is listed.
pub struct Log {
    text: String,
    /// Where each line ends.
    ends: Vec<usize>,
    /// The lines up to the first JSR that is listed, since there the Rust goes elsewhere.
    pub by_the_rust: usize,
    /// The steps between these that took the Rust 8 cycles for 7.
    pub converted: usize,
    /// What was stored, with the number of lines before that step.
    stores: Vec<(usize, u16, u8)>,
}

impl Log {
    /// At most so many steps. The Rust has no last count, so that this is looked for before each step.
    pub fn of(image: &[u8], first: State, steps: usize) -> Result<Log, String> {
        let mut log = Log {
            text: String::new(),
            ends: Vec::new(),
            by_the_rust: 0,
            converted: 0,
            stores: Vec::new(),
        };
        log.put(&first);
        let mut walk = Walk::new(image, first);
        let mut called = None;
        while log.count() <= steps && walk.state.cycles <= HIGHEST_COUNT {
            let Some(made) = walk.step()? else {
                break;
            };
            match made.known {
                Some(Known::ModifyOverAPage) if called.is_none() => log.converted += 1,
                Some(Known::FirstPush | Known::SecondPush) if called.is_none() => {
                    called = Some(log.count());
                }
                _ => {}
            }
            for access in walk.core.accesses() {
                if let Access::Store(address) = *access {
                    let byte = walk.core.bytes()[usize::from(address)];
                    log.stores.push((log.count(), address, byte));
                }
            }
            log.put(&walk.state);
        }
        log.by_the_rust = called.unwrap_or(log.count());
        if log.memory_after(image, log.count()) != walk.core.bytes() {
            return Err("the Rust's memory is not what it stored".into());
        }
        Ok(log)
    }

    fn put(&mut self, state: &State) {
        self.text.push_str(&line_of(state));
        self.ends.push(self.text.len());
    }

    /// The number of lines.
    pub fn count(&self) -> usize {
        self.ends.len()
    }

    /// The first so many lines.
    pub fn lines(&self, count: usize) -> &[u8] {
        let end = count.checked_sub(1).map_or(0, |last| self.ends[last]);
        &self.text.as_bytes()[..end]
    }

    /// A line, counted from 0, where there is one.
    pub fn line(&self, number: usize) -> Option<&[u8]> {
        let end = *self.ends.get(number)?;
        Some(&self.lines(number + 1)[self.lines(number).len()..end])
    }

    /// The memory after the first so many lines.
    pub fn memory_after(&self, image: &[u8], lines: usize) -> Vec<u8> {
        let mut memory = image.to_vec();
        let made = self.stores.iter().take_while(|(line, ..)| *line < lines);
        for (_, address, byte) in made {
            memory[usize::from(*address)] = *byte;
        }
        memory
    }
}

/// The lines of the Rust as it is: with its own cycles, its own JSR and the bytes that it executes though they are no documented
/// opcodes, until it makes no step.
pub fn as_it_is(image: &[u8], first: State, steps: usize) -> Vec<u8> {
    let mut core = Core::new(image.to_vec());
    let mut state = first;
    let mut text = line_of(&state);
    for _ in 0..steps {
        match core.step(&state) {
            Some(after) => state = after,
            None => break,
        }
        text.push_str(&line_of(&state));
    }
    text.into_bytes()
}
