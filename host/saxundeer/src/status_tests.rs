//! The flags: what the operators and the functions make of every byte.

use super::*;

#[test]
fn a_status_is_the_byte_that_is_pushed() {
    for byte in 0..=0xFF {
        assert_eq!(Status::from_bits_truncate(byte).bits(), byte | 0x30);
    }
}

#[test]
fn each_flag_is_one_bit_of_the_six() {
    let flags = [
        (Status::PS_NEGATIVE, 0x80),
        (Status::PS_OVERFLOW, 0x40),
        (Status::PS_DECIMAL_MODE, 0x08),
        (Status::PS_DISABLE_INTERRUPTS, 0x04),
        (Status::PS_ZERO, 0x02),
        (Status::PS_CARRY, 0x01),
    ];
    for byte in 0..=0xFF {
        for (flag, bit) in flags {
            let mut status = Status::from_bits_truncate(byte);
            assert_eq!(status.contains(flag), byte & bit != 0);
            status.set(flag, true);
            assert_eq!(status.bits(), byte | bit | 0x30);
            status.set(flag, false);
            assert_eq!(status.bits(), byte & !bit | 0x30);
        }
    }
}

/// The six flags of a byte, as a status has them.
fn flags(byte: u8) -> Status {
    Status::from_bits_truncate(byte)
}

#[test]
fn the_operators_are_those_of_sets() {
    for one in 0..=0xFF {
        for other in 0..=0xFF {
            let (a, b) = (flags(one), flags(other));
            assert_eq!(a | b, flags(one | other));
            assert_eq!(a & b, flags(one & other));
            assert_eq!(a ^ b, flags(one ^ other));
            assert_eq!(a - b, flags(one & !other));
            assert_eq!(a.contains(b), (a | b) == a);
            assert_eq!(a.intersects(b), a & b != Status::empty());
        }
        assert_eq!(!flags(one), flags(!one));
        assert_eq!(flags(one).is_empty(), one & 0xCF == 0);
        assert_eq!(flags(one).is_all(), one & 0xCF == 0xCF);
    }
    assert_eq!(Status::all(), !Status::empty());
}

/// A function that changes a status, as one that gives the new one.
fn changed(by: impl FnOnce(&mut Status), mut status: Status) -> Status {
    by(&mut status);
    status
}

#[test]
fn what_assigns_does_as_its_operator() {
    for byte in 0..=0xFF {
        let (a, b) = (flags(0x5A), flags(byte));
        assert_eq!(changed(|status| *status |= b, a), a | b);
        assert_eq!(changed(|status| status.insert(b), a), a | b);
        assert_eq!(changed(|status| status.or(b), a), a | b);
        assert_eq!(changed(|status| *status &= b, a), a & b);
        assert_eq!(changed(|status| status.and(b), a), a & b);
        assert_eq!(changed(|status| *status ^= b, a), a ^ b);
        assert_eq!(changed(|status| status.toggle(b), a), a ^ b);
        assert_eq!(changed(|status| *status -= b, a), a - b);
        assert_eq!(changed(|status| status.remove(b), a), a - b);
        let masked = changed(|status| status.set_with_mask(b, Status::PS_ZERO), a);
        assert_eq!(masked, a & !b | Status::PS_ZERO);
    }
}
