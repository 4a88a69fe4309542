//! The status, with the names and the operators of the crate mos6502.

use core::ops::{
    BitAnd, BitAndAssign, BitOr, BitOrAssign, BitXor, BitXorAssign, Not, Sub, SubAssign,
};

/// The bits in which the chip has nothing.
const NOT_FLAGS: u8 = 0x30;

/// A set of the six flags, with the names of mos6502. The chip has nothing in bits 4 and 5, where mos6502 keeps what PLP and RTI
/// pull: here they are always set, as in the byte that PHP pushes, and no operator changes them.
///
/// ```
/// use saxundeer::Status;
///
/// let mut status = Status::PS_ZERO | Status::PS_CARRY;
/// status -= Status::PS_ZERO;
/// assert_eq!(status, Status::PS_CARRY);
/// assert_eq!(!status & Status::PS_CARRY, Status::empty());
/// assert_eq!(status.bits(), 0x31);
/// ```
#[derive(Clone, Copy, Debug, PartialEq, Eq, PartialOrd, Ord, Hash)]
pub struct Status(u8);

/// Only I is set, as in mos6502.
impl Default for Status {
    fn default() -> Status {
        Status::PS_DISABLE_INTERRUPTS
    }
}

impl Status {
    pub const PS_NEGATIVE: Status = Status::from_bits_truncate(0x80);
    pub const PS_OVERFLOW: Status = Status::from_bits_truncate(0x40);
    pub const PS_DECIMAL_MODE: Status = Status::from_bits_truncate(0x08);
    pub const PS_DISABLE_INTERRUPTS: Status = Status::from_bits_truncate(0x04);
    pub const PS_ZERO: Status = Status::from_bits_truncate(0x02);
    pub const PS_CARRY: Status = Status::from_bits_truncate(0x01);

    /// The flags of a byte as PLP pulls it.
    #[must_use]
    #[inline]
    pub const fn from_bits_truncate(byte: u8) -> Status {
        Status(byte | NOT_FLAGS)
    }

    /// The byte that PHP pushes, with bits 4 and 5 set.
    #[must_use]
    #[inline]
    pub const fn bits(self) -> u8 {
        self.0
    }

    /// No flag.
    #[must_use]
    #[inline]
    pub const fn empty() -> Status {
        Status::from_bits_truncate(0)
    }

    /// All six flags.
    #[must_use]
    #[inline]
    pub const fn all() -> Status {
        Status::from_bits_truncate(0xFF)
    }

    /// Whether none is set.
    #[must_use]
    #[inline]
    pub const fn is_empty(self) -> bool {
        self.0 == Status::empty().0
    }

    /// Whether all six are set.
    #[must_use]
    #[inline]
    pub const fn is_all(self) -> bool {
        self.0 == Status::all().0
    }

    /// Whether all of these flags are set.
    #[must_use]
    #[inline]
    pub const fn contains(self, flags: Status) -> bool {
        self.0 & flags.0 == flags.0
    }

    /// Whether one of these flags is set.
    #[must_use]
    #[inline]
    pub const fn intersects(self, flags: Status) -> bool {
        !self.intersection(flags).is_empty()
    }

    /// The flags that are set in one of the two, as `|`.
    #[must_use]
    #[inline]
    pub const fn union(self, other: Status) -> Status {
        Status(self.0 | other.0)
    }

    /// The flags that are set in both, as `&`.
    #[must_use]
    #[inline]
    pub const fn intersection(self, other: Status) -> Status {
        Status(self.0 & other.0)
    }

    /// The flags that are set in this one only, as `-`.
    #[must_use]
    #[inline]
    pub const fn difference(self, other: Status) -> Status {
        self.intersection(other.complement())
    }

    /// The flags that are set in one of the two and not in the other, as `^`.
    #[must_use]
    #[inline]
    pub const fn symmetric_difference(self, other: Status) -> Status {
        Status::from_bits_truncate(self.0 ^ other.0)
    }

    /// The flags that are not set, as `!`.
    #[must_use]
    #[inline]
    pub const fn complement(self) -> Status {
        Status::from_bits_truncate(!self.0)
    }

    /// Sets these flags.
    #[inline]
    pub const fn insert(&mut self, flags: Status) {
        *self = self.union(flags);
    }

    /// Clears these flags.
    #[inline]
    pub const fn remove(&mut self, flags: Status) {
        *self = self.difference(flags);
    }

    /// Turns these flags.
    #[inline]
    pub const fn toggle(&mut self, flags: Status) {
        *self = self.symmetric_difference(flags);
    }

    /// Sets these flags, or clears them.
    #[inline]
    pub const fn set(&mut self, flags: Status, value: bool) {
        if value {
            self.insert(flags);
        } else {
            self.remove(flags);
        }
    }

    /// Keeps the flags that are set in both, as in mos6502.
    #[inline]
    pub const fn and(&mut self, other: Status) {
        *self = self.intersection(other);
    }

    /// Sets those of another one too, as in mos6502.
    #[inline]
    pub const fn or(&mut self, other: Status) {
        self.insert(other);
    }

    /// Clears the flags of the mask, and then sets those of another one, as in mos6502.
    #[inline]
    pub const fn set_with_mask(&mut self, mask: Status, other: Status) {
        *self = self.difference(mask).union(other);
    }
}

/// An operator and the one that assigns, by the function that they stand for.
macro_rules! operators {
    ($($operator:ident $operate:ident $assigning:ident $assign:ident $function:ident;)*) => {$(
        impl $operator for Status {
            type Output = Status;

            #[inline]
            fn $operate(self, other: Status) -> Status {
                self.$function(other)
            }
        }

        impl $assigning for Status {
            #[inline]
            fn $assign(&mut self, other: Status) {
                *self = self.$function(other);
            }
        }
    )*};
}

operators! {
    BitOr bitor BitOrAssign bitor_assign union;
    BitAnd bitand BitAndAssign bitand_assign intersection;
    BitXor bitxor BitXorAssign bitxor_assign symmetric_difference;
    Sub sub SubAssign sub_assign difference;
}

impl Not for Status {
    type Output = Status;

    #[inline]
    fn not(self) -> Status {
        self.complement()
    }
}
