//! ADC and SBC over every A, operand and carry, binary and decimal: 131,072 inputs four times.

use crate::case::Case;
use crate::random::Random;

/// Hands over every one.
pub fn each<Fault>(
    random: &mut Random,
    visit: &mut impl FnMut(Case) -> Result<(), Fault>,
) -> Result<(), Fault> {
    for opcode in [0x69, 0xE9] {
        for decimal_and_carry in [0x00, 0x01, 0x08, 0x09] {
            for accumulator in 0..=0xFF {
                for operand in 0..=0xFF {
                    let mut state = random.state();
                    state.accumulator = accumulator;
                    // The other flags are random: none of them may matter.
                    state.status = state.status & 0xF6 | decimal_and_carry;
                    let mut case = Case::new(state);
                    case.put_code(&[opcode, operand]);
                    visit(case)?;
                }
            }
        }
    }
    Ok(())
}
