//! Makes an input on which the cores differ as small as it goes, so that a reader sees what matters.

use oracle::case::Case;
use oracle::interrupts::Level;
use oracle::state::{RUST_AND_PORT, byte_difference};

use crate::fault::{Fault, Plant};
use crate::pair::Pair;

/// What differs in the step of a case on an otherwise empty memory, all bytes compared.
fn differs(case: &Case, plant: Plant) -> Option<String> {
    let mut pair = Pair::new(case.memory(), plant);
    match pair.same_call(case) {
        Ok(()) => byte_difference(RUST_AND_PORT, pair.rust.bytes(), &pair.memory),
        Err(fault) => Some(fault.what),
    }
}

/// The one case of a fault on which it shows, if there are more than one.
fn guilty(cases: Vec<Case>, plant: Plant) -> Option<Case> {
    let is_alone = cases.len() == 1;
    let mut cases = cases.into_iter();
    cases.find(|case| is_alone || differs(case, plant).is_some())
}

/// What a fault is, on its smallest input; on the one that it came with where it does not show on an otherwise empty memory.
pub fn shrunk(fault: Fault, plant: Plant) -> (Option<Case>, String) {
    let Some(guilty) = guilty(fault.cases, plant) else {
        return (None, fault.what);
    };
    let mut case = guilty.smallest();
    let Some(mut what) = differs(&case, plant) else {
        return (Some(guilty), fault.what);
    };
    // Every smaller case that still differs is taken, until none does.
    while let Some((smaller, still)) = candidates(&case)
        .into_iter()
        .find_map(|smaller| differs(&smaller, plant).map(|what| (smaller, what)))
    {
        (case, what) = (smaller, still);
    }
    (Some(case), what)
}

/// The case with one thing less in it: each register as after a reset, each flag clear, each line high, each byte but the one
/// at the counter 0.
fn candidates(case: &Case) -> Vec<Case> {
    let mut list = Vec::new();
    let mut add = |change: &dyn Fn(&mut Case)| {
        let mut smaller = case.clone();
        change(&mut smaller);
        let smaller = smaller.smallest();
        if (smaller.state, smaller.lines) != (case.state, case.lines) || smaller.bytes != case.bytes
        {
            list.push(smaller);
        }
    };
    add(&|case| case.state.cycles = 0);
    add(&|case| case.state.accumulator = 0);
    add(&|case| case.state.x = 0);
    add(&|case| case.state.y = 0);
    add(&|case| case.state.stack = 0xFF);
    add(&|case| move_code(case, 0x0200));
    for bit in 0..8 {
        add(&|case| case.state.status &= !(1 << bit));
    }
    add(&|case| case.lines.irq = Level::High);
    add(&|case| case.lines.nmi = Level::High);
    add(&|case| case.lines.last_nmi = Level::High);
    for (address, _) in case.bytes.iter().skip(1) {
        add(&|case| case.put(*address, 0));
    }
    list
}

fn move_code(case: &mut Case, counter: u16) {
    let old = case.state.counter;
    let code = [0, 1, 2].map(|offset| case.byte(old.wrapping_add(offset)));
    case.state.counter = counter;
    case.put_code(&code);
}
