//! The kinds of 6502.

/// The kinds of 6502, of which there is one: [`Nmos6502`](crate::instruction::Nmos6502). It is here so that a function over any of
/// them compiles; what it has in mos6502, `decode` and the sums, the proved core does inside.
pub trait Variant: Sealed {}

/// Nobody else can add a kind, since the core would not know it.
pub trait Sealed {}
