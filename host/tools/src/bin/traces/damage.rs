//! What can befall a log.

use oracle::random::Random;

pub struct Damage {
    pub name: &'static str,
    pub make: fn(&mut Random, &[u8]) -> Vec<u8>,
}

pub const DAMAGES: [Damage; 9] = [
    Damage {
        name: "a character changed",
        make: |random, text| {
            let mut text = text.to_vec();
            let place = place(random, &text);
            let old = text[place];
            while text[place] == old {
                text[place] = character(random);
            }
            text
        },
    },
    Damage {
        name: "a digit changed",
        make: |random, text| {
            let mut text = text.to_vec();
            loop {
                let place = place(random, &text);
                let old = text[place];
                if old.is_ascii_hexdigit() {
                    while text[place] == old {
                        text[place] = random.one_of(DIGITS);
                    }
                    return text;
                }
            }
        },
    },
    Damage {
        name: "a character put in",
        make: |random, text| {
            let mut text = text.to_vec();
            // Also after the last one.
            let place = place(random, &text) + random.below(2);
            text.insert(place, character(random));
            text
        },
    },
    Damage {
        name: "a character lost",
        make: |random, text| {
            let mut text = text.to_vec();
            let place = place(random, &text);
            text.remove(place);
            text
        },
    },
    Damage {
        name: "a line cut short",
        make: |random, text| {
            let mut lines = lines(text);
            let line = number(random, lines.len());
            let kept = random.below(lines[line].len() - 1);
            let (start, end) = (&lines[line][..kept], &b"\n"[..]);
            lines.splice(line..=line, [start, end]);
            lines.concat()
        },
    },
    Damage {
        name: "the log broken off",
        make: |random, text| {
            let lines = lines(text);
            let line = number(random, lines.len());
            let kept = random.below(lines[line].len());
            [&lines[..line].concat(), &lines[line][..kept]].concat()
        },
    },
    Damage {
        name: "a line dropped",
        make: |random, text| {
            let mut lines = lines(text);
            lines.remove(number(random, lines.len()));
            lines.concat()
        },
    },
    Damage {
        name: "a line doubled",
        make: |random, text| {
            let mut lines = lines(text);
            let line = number(random, lines.len());
            lines.insert(line, lines[line]);
            lines.concat()
        },
    },
    Damage {
        name: "two lines swapped",
        make: |random, text| {
            let mut lines = lines(text);
            let line = number(random, lines.len());
            let other = match random.below(2) {
                0 => (line + 1) % lines.len(),
                _ => number(random, lines.len()),
            };
            lines.swap(line, other);
            lines.concat()
        },
    },
];

const DIGITS: &[u8] = b"0123456789ABCDEF";
/// What a changed character becomes, but for one time in four, when it is any byte.
const CHARACTERS: &[u8] = b"0123456789ABCDEFabcdef \n\r+-";

fn character(random: &mut Random) -> u8 {
    match random.below(4) {
        0 => random.any_byte(),
        _ => random.one_of(CHARACTERS),
    }
}

fn lines(text: &[u8]) -> Vec<&[u8]> {
    text.split_inclusive(|byte| *byte == b'\n').collect()
}

/// One of so many lines: one time in four one of the first two, and one time in four the last.
fn number(random: &mut Random, lines: usize) -> usize {
    match random.below(4) {
        0 => random.below(lines.min(2)),
        1 => lines - 1,
        _ => random.below(lines),
    }
}

/// The place of a character in such a line.
fn place(random: &mut Random, text: &[u8]) -> usize {
    let lines = lines(text);
    let line = number(random, lines.len());
    let before = lines[..line].iter().map(|line| line.len()).sum::<usize>();
    before + random.below(lines[line].len())
}
