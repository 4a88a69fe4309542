//! The kind of 6502.

use crate::variant::{Sealed, Variant};

/// The NMOS 6502: its 151 documented opcodes.
#[derive(Copy, Clone, Debug, Default)]
pub struct Nmos6502;

impl Sealed for Nmos6502 {}

impl Variant for Nmos6502 {}
