//! The stretches of memory that srecord is asked to write, and how it is asked to; and those that are punched.

use std::ops::Range;

use oracle::images::SIZE;
use oracle::random::Random;

use crate::srecord::{LineEnd, PLAIN, Spelling};

pub struct Kind {
    pub name: &'static str,
    pub make: fn(&mut Random) -> Order,
}

/// What srecord is asked for.
pub struct Order {
    pub image: Vec<u8>,
    /// In order, each apart from the next.
    pub stretches: Vec<Range<usize>>,
    pub spelling: Spelling,
}

impl Order {
    /// A memory with the bytes of the stretches.
    pub fn laid_over(&self, memory: &[u8]) -> Vec<u8> {
        let mut memory = memory.to_vec();
        for stretch in &self.stretches {
            memory[stretch.clone()].copy_from_slice(&self.image[stretch.clone()]);
        }
        memory
    }
}

pub const KINDS: [Kind; 7] = [
    Kind {
        name: "one stretch",
        make: one,
    },
    Kind {
        name: "2 to 12 stretches",
        make: several,
    },
    Kind {
        name: "60 to 700 stretches",
        make: many,
    },
    Kind {
        name: "at the memory's ends",
        make: ends,
    },
    Kind {
        name: "254 to 258 records",
        make: about_256,
    },
    Kind {
        name: "sums about 65,536",
        make: sums,
    },
    Kind {
        name: "all 65,536 bytes",
        make: all,
    },
];

/// Sizes at which a record of 24 bytes, one of srecord's blocks or a byte is full.
const SIZES: [usize; 10] = [1, 2, 23, 24, 25, 48, 255, 256, 257, 512];
const RECORDS: [u8; 9] = [1, 2, 16, 23, 24, 25, 32, 254, 255];

fn line_end(random: &mut Random) -> LineEnd {
    random.one_of(&[LineEnd::Lf, LineEnd::CrLf, LineEnd::Cr])
}

/// Half of the tapes are as srecord writes them unasked.
fn spelling(random: &mut Random) -> Spelling {
    if random.below(2) == 0 {
        return PLAIN;
    }
    let size = match random.below(4) {
        0 => None,
        1 => Some(1 + random.below(255) as u8),
        _ => Some(random.one_of(&RECORDS)),
    };
    Spelling {
        line_end: line_end(random),
        size,
        packed: random.below(2) == 0,
    }
}

fn order(random: &mut Random, stretches: Vec<Range<usize>>) -> Order {
    Order {
        image: random.memory(),
        stretches,
        spelling: spelling(random),
    }
}

/// Short ones are as frequent as long ones.
fn stretch(random: &mut Random) -> Range<usize> {
    let first = usize::from(random.address());
    let most = 1 << random.below(17);
    first..SIZE.min(first + 1 + random.below(most))
}

fn one(random: &mut Random) -> Order {
    let stretch = stretch(random);
    order(random, vec![stretch])
}

fn several(random: &mut Random) -> Order {
    let window = 64 << random.below(11);
    let start = random.below(SIZE + 1 - window);
    let count = 2 + random.below(11);
    let mut cuts = std::collections::BTreeSet::new();
    while cuts.len() < 2 * count {
        cuts.insert(start + random.below(window + 1));
    }
    let cuts: Vec<usize> = cuts.into_iter().collect();
    let stretches = cuts.chunks(2).map(|pair| pair[0]..pair[1]).collect();
    order(random, stretches)
}

fn many(random: &mut Random) -> Order {
    let mut at = random.below(SIZE / 4);
    let mut stretches = Vec::new();
    for _ in 0..60 + random.below(641) {
        let end = at + 1 + random.below(30);
        stretches.push(at..end);
        at = end + 1 + random.below(39);
    }
    order(random, stretches)
}

fn ends(random: &mut Random) -> Order {
    let mut size = || random.one_of(&SIZES);
    let (low, high) = (0..size(), SIZE - size()..SIZE);
    let stretches = match random.below(3) {
        0 => vec![low],
        1 => vec![high],
        _ => vec![low, high],
    };
    order(random, stretches)
}

/// From 256 records on srecord's end record is another one.
fn about_256(random: &mut Random) -> Order {
    let size = match random.below(2) {
        0 => None,
        _ => Some(1 + random.below(250) as u8),
    };
    let record = usize::from(size.unwrap_or(24));
    let length = record * (254 + random.below(5)) - random.below(record);
    let first = random.below(SIZE + 1 - length);
    Order {
        image: random.memory(),
        stretches: vec![first..first + length],
        spelling: Spelling {
            line_end: line_end(random),
            size,
            packed: true,
        },
    }
}

/// Only a record of 255 bytes, nearly all of them FF, has a sum that goes round: FF times 256 and the address's two bytes.
fn sums(random: &mut Random) -> Order {
    let high = 5 + random.below(0xFF - 5);
    let low = 254 + random.below(7) - high;
    let first = high * 256 + low;
    let mut image = vec![0xFF; SIZE];
    for _ in 0..random.below(4) {
        image[first + random.below(255)] = 0xFE;
    }
    Order {
        image,
        stretches: vec![first..first + 255],
        spelling: Spelling {
            line_end: line_end(random),
            size: Some(255),
            packed: true,
        },
    }
}

fn all(random: &mut Random) -> Order {
    order(random, vec![0..SIZE])
}

/// The stretches that every run punches, by their length: where they begin is random for the first five.
const LENGTHS: [usize; 5] = [1, 23, 24, 25, 48];
const PLACES: [Range<usize>; 4] = [0xFFE8..SIZE, 0..SIZE, 0..1, 0xFFFF..SIZE];

/// The stretch of a number.
pub fn to_punch(random: &mut Random, number: usize) -> Range<usize> {
    if let Some(length) = LENGTHS.get(number) {
        let first = random.below(SIZE + 1 - length);
        return first..first + length;
    }
    match PLACES.get(number - LENGTHS.len()) {
        Some(place) => place.clone(),
        None => stretch(random),
    }
}
