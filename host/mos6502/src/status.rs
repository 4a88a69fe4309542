//! The status register. In mos6502 the crate bitflags, of version 2, makes it: what that gives to a program is written out here.

use core::fmt::{self, Formatter};
use core::ops::{
    BitAnd, BitAndAssign, BitOr, BitOrAssign, BitXor, BitXorAssign, Not, Sub, SubAssign,
};

/// Which flags are to be set, for [`Status::new`].
#[derive(Copy, Clone, Debug)]
pub struct StatusArgs {
    pub negative: bool,
    pub overflow: bool,
    pub unused: bool,
    pub brk: bool,
    pub decimal_mode: bool,
    pub disable_interrupts: bool,
    pub zero: bool,
    pub carry: bool,
}

impl StatusArgs {
    /// None of them.
    #[must_use]
    pub const fn none() -> StatusArgs {
        StatusArgs {
            negative: false,
            overflow: false,
            unused: false,
            brk: false,
            decimal_mode: false,
            disable_interrupts: false,
            zero: false,
            carry: false,
        }
    }
}

/// The flags. Bits 4 and 5 are none of the 6502's: no step looks at them or changes them.
#[derive(Clone, Copy, PartialEq, Eq, PartialOrd, Ord, Hash)]
pub struct Status(u8);

/// By name, the highest first.
const NAMES: [(&str, Status); 8] = [
    ("PS_NEGATIVE", Status::PS_NEGATIVE),
    ("PS_OVERFLOW", Status::PS_OVERFLOW),
    ("PS_UNUSED", Status::PS_UNUSED),
    ("PS_BRK", Status::PS_BRK),
    ("PS_DECIMAL_MODE", Status::PS_DECIMAL_MODE),
    ("PS_DISABLE_INTERRUPTS", Status::PS_DISABLE_INTERRUPTS),
    ("PS_ZERO", Status::PS_ZERO),
    ("PS_CARRY", Status::PS_CARRY),
];

impl Status {
    pub const PS_NEGATIVE: Status = Status(0x80);
    pub const PS_OVERFLOW: Status = Status(0x40);
    pub const PS_UNUSED: Status = Status(0x20);
    pub const PS_BRK: Status = Status(0x10);
    pub const PS_DECIMAL_MODE: Status = Status(0x08);
    pub const PS_DISABLE_INTERRUPTS: Status = Status(0x04);
    pub const PS_ZERO: Status = Status(0x02);
    pub const PS_CARRY: Status = Status(0x01);

    /// The flags that are asked for.
    #[must_use]
    pub fn new(flags: StatusArgs) -> Status {
        let asked = [
            flags.negative,
            flags.overflow,
            flags.unused,
            flags.brk,
            flags.decimal_mode,
            flags.disable_interrupts,
            flags.zero,
            flags.carry,
        ];
        let named = NAMES.into_iter().zip(asked);
        named
            .filter(|(_, is_set)| *is_set)
            .map(|((_, flag), _)| flag)
            .collect()
    }

    /// Keeps those that the other has too.
    pub fn and(&mut self, rhs: Status) {
        *self &= rhs;
    }

    /// Sets those of the other too.
    pub fn or(&mut self, rhs: Status) {
        *self |= rhs;
    }

    /// Clears those of the mask, then sets those of the other.
    pub fn set_with_mask(&mut self, mask: Status, rhs: Status) {
        *self = *self & !mask | rhs;
    }

    /// No flag.
    #[must_use]
    pub const fn empty() -> Status {
        Status(0x00)
    }

    /// Every flag.
    #[must_use]
    pub const fn all() -> Status {
        Status(0xFF)
    }

    /// The byte.
    #[must_use]
    pub const fn bits(&self) -> u8 {
        self.0
    }

    /// The flags of a byte: never none, since each bit has a name.
    #[must_use]
    pub const fn from_bits(bits: u8) -> Option<Status> {
        Some(Status(bits))
    }

    /// The flags of a byte.
    #[must_use]
    pub const fn from_bits_truncate(bits: u8) -> Status {
        Status(bits)
    }

    /// The flags of a byte.
    #[must_use]
    pub const fn from_bits_retain(bits: u8) -> Status {
        Status(bits)
    }

    /// The flag of a name, as `PS_CARRY`.
    #[must_use]
    pub fn from_name(name: &str) -> Option<Status> {
        let mut named = NAMES.into_iter();
        named.find_map(|(known, flag)| (known == name).then_some(flag))
    }

    /// Whether no flag is set.
    #[must_use]
    pub const fn is_empty(&self) -> bool {
        self.0 == 0x00
    }

    /// Whether every flag is set.
    #[must_use]
    pub const fn is_all(&self) -> bool {
        self.0 == 0xFF
    }

    /// Whether one of these flags is set.
    #[must_use]
    pub const fn intersects(&self, other: Status) -> bool {
        self.0 & other.0 != 0
    }

    /// Whether all of these flags are set.
    #[must_use]
    pub const fn contains(&self, other: Status) -> bool {
        self.0 & other.0 == other.0
    }

    /// Sets these flags.
    pub const fn insert(&mut self, other: Status) {
        self.0 |= other.0;
    }

    /// Clears these flags.
    pub const fn remove(&mut self, other: Status) {
        self.0 &= !other.0;
    }

    /// Turns these flags over.
    pub const fn toggle(&mut self, other: Status) {
        self.0 ^= other.0;
    }

    /// Sets these flags, or clears them.
    pub const fn set(&mut self, other: Status, value: bool) {
        if value {
            self.insert(other);
        } else {
            self.remove(other);
        }
    }

    /// Those that both have.
    #[must_use]
    pub const fn intersection(self, other: Status) -> Status {
        Status(self.0 & other.0)
    }

    /// Those that either has.
    #[must_use]
    pub const fn union(self, other: Status) -> Status {
        Status(self.0 | other.0)
    }

    /// Those that the other does not have.
    #[must_use]
    pub const fn difference(self, other: Status) -> Status {
        Status(self.0 & !other.0)
    }

    /// Those that one of the two has.
    #[must_use]
    pub const fn symmetric_difference(self, other: Status) -> Status {
        Status(self.0 ^ other.0)
    }

    /// Those that it does not have.
    #[must_use]
    pub const fn complement(self) -> Status {
        Status(!self.0)
    }

    /// Its flags, one by one, the highest first.
    #[must_use]
    pub const fn iter(&self) -> Flags {
        Flags(*self)
    }

    /// The same with their names.
    pub fn iter_names(&self) -> impl Iterator<Item = (&'static str, Status)> + use<> {
        let status = *self;
        NAMES
            .into_iter()
            .filter(move |(_, flag)| status.contains(*flag))
    }
}

/// As mos6502 has it at first: I is set, and the bit that has no use.
impl Default for Status {
    fn default() -> Status {
        Status::PS_UNUSED | Status::PS_DISABLE_INTERRUPTS
    }
}

/// The names, as `Status(PS_ZERO | PS_CARRY)`, and `Status(0x0)` if there is none.
impl fmt::Debug for Status {
    fn fmt(&self, formatter: &mut Formatter<'_>) -> fmt::Result {
        struct Named(Status);

        impl fmt::Debug for Named {
            fn fmt(&self, formatter: &mut Formatter<'_>) -> fmt::Result {
                if self.0.is_empty() {
                    return formatter.write_str("0x0");
                }
                for (count, (name, _)) in self.0.iter_names().enumerate() {
                    formatter.write_str(if count > 0 { " | " } else { "" })?;
                    formatter.write_str(name)?;
                }
                Ok(())
            }
        }
        formatter
            .debug_tuple("Status")
            .field(&Named(*self))
            .finish()
    }
}

macro_rules! written_as_its_byte {
    ($($format:ident)*) => {$(
        impl fmt::$format for Status {
            fn fmt(&self, formatter: &mut Formatter<'_>) -> fmt::Result {
                fmt::$format::fmt(&self.0, formatter)
            }
        }
    )*};
}

written_as_its_byte!(Binary Octal LowerHex UpperHex);

macro_rules! operators {
    ($($operator:ident $function:ident, $assigning:ident $assign:ident: $by:ident;)*) => {$(
        impl $operator for Status {
            type Output = Status;

            fn $function(self, other: Status) -> Status {
                self.$by(other)
            }
        }

        impl $assigning for Status {
            fn $assign(&mut self, other: Status) {
                *self = self.$by(other);
            }
        }
    )*};
}

operators! {
    BitOr bitor, BitOrAssign bitor_assign: union;
    BitAnd bitand, BitAndAssign bitand_assign: intersection;
    BitXor bitxor, BitXorAssign bitxor_assign: symmetric_difference;
    Sub sub, SubAssign sub_assign: difference;
}

impl Not for Status {
    type Output = Status;

    fn not(self) -> Status {
        self.complement()
    }
}

impl Extend<Status> for Status {
    fn extend<I: IntoIterator<Item = Status>>(&mut self, statuses: I) {
        statuses.into_iter().for_each(|status| self.insert(status));
    }
}

impl FromIterator<Status> for Status {
    fn from_iter<I: IntoIterator<Item = Status>>(statuses: I) -> Status {
        let mut all = Status::empty();
        all.extend(statuses);
        all
    }
}

/// The flags of a status that are still to come.
#[derive(Clone, Debug)]
pub struct Flags(Status);

impl Iterator for Flags {
    type Item = Status;

    fn next(&mut self) -> Option<Status> {
        let (_, flag) = self.0.iter_names().next()?;
        self.0.remove(flag);
        Some(flag)
    }
}

impl IntoIterator for Status {
    type Item = Status;
    type IntoIter = Flags;

    fn into_iter(self) -> Flags {
        self.iter()
    }
}
