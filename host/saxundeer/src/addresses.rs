//! Sets of addresses, as the maps of the C functions.

use core::fmt::{Debug, Formatter, Result};
use core::ops::{BitOrAssign, RangeInclusive};

/// The bytes of a map: a bit for each address.
pub(crate) const MAP_SIZE: usize = 8_192;

/// A set of addresses. Put together from ranges; a range whose end is below its start has none.
///
/// ```
/// use saxundeer::AddressSet;
///
/// let mut devices = AddressSet::from(0xD000..=0xD00F);
/// devices.insert(0xD800..=0xDBFF);
/// assert!(devices.contains(0xD00F) && !devices.contains(0xD010));
/// assert_eq!(devices, [0xD800..=0xDBFF, 0xD000..=0xD00F].into_iter().collect());
/// ```
// The address a is in bit a % 8 of byte a / 8.
#[derive(Clone, PartialEq, Eq, Hash)]
pub struct AddressSet([u8; MAP_SIZE]);

impl AddressSet {
    /// No address.
    pub const EMPTY: AddressSet = AddressSet([0; MAP_SIZE]);
    /// Every address.
    pub const ALL: AddressSet = AddressSet([0xFF; MAP_SIZE]);

    /// Puts the addresses of a range into the set.
    pub fn insert(&mut self, range: RangeInclusive<u16>) {
        for address in range {
            self.0[usize::from(address / 8)] |= 1 << (address % 8);
        }
    }

    /// Whether the set has this address.
    #[must_use]
    #[inline]
    pub fn contains(&self, address: u16) -> bool {
        self.0[usize::from(address / 8)] >> (address % 8) & 1 == 1
    }

    /// Whether it has none.
    #[must_use]
    pub fn is_empty(&self) -> bool {
        *self == AddressSet::EMPTY
    }

    /// The ranges of which it consists, in order, each as long as it can be.
    pub fn ranges(&self) -> impl Iterator<Item = RangeInclusive<u16>> {
        let is_first = |&address: &u16| {
            self.contains(address) && (address == 0 || !self.contains(address - 1))
        };
        (0..=u16::MAX).filter(is_first).map(|first| {
            let others = first..=u16::MAX;
            let last = others.take_while(|&address| self.contains(address)).last();
            first..=last.unwrap_or(first)
        })
    }

    /// The map that the C functions take.
    #[inline]
    pub(crate) fn map(&self) -> &[u8; MAP_SIZE] {
        &self.0
    }
}

/// It is empty at first.
impl Default for AddressSet {
    fn default() -> AddressSet {
        AddressSet::EMPTY
    }
}

impl From<RangeInclusive<u16>> for AddressSet {
    fn from(range: RangeInclusive<u16>) -> AddressSet {
        [range].into_iter().collect()
    }
}

impl FromIterator<RangeInclusive<u16>> for AddressSet {
    fn from_iter<I: IntoIterator<Item = RangeInclusive<u16>>>(ranges: I) -> AddressSet {
        let mut set = AddressSet::EMPTY;
        set.extend(ranges);
        set
    }
}

impl Extend<RangeInclusive<u16>> for AddressSet {
    fn extend<I: IntoIterator<Item = RangeInclusive<u16>>>(&mut self, ranges: I) {
        ranges.into_iter().for_each(|range| self.insert(range));
    }
}

/// The union: puts the addresses of another set into this one.
impl BitOrAssign<&AddressSet> for AddressSet {
    fn bitor_assign(&mut self, other: &AddressSet) {
        for (byte, more) in self.0.iter_mut().zip(&other.0) {
            *byte |= more;
        }
    }
}

/// The ranges, as `{D000..=D00F, D800..=DBFF}`.
impl Debug for AddressSet {
    fn fmt(&self, formatter: &mut Formatter<'_>) -> Result {
        struct Spelled(RangeInclusive<u16>);

        impl Debug for Spelled {
            fn fmt(&self, formatter: &mut Formatter<'_>) -> Result {
                write!(formatter, "{:04X}..={:04X}", self.0.start(), self.0.end())
            }
        }
        let ranges = self.ranges().map(Spelled);
        formatter.debug_set().entries(ranges).finish()
    }
}
