//! The images on which the program report is asked, and of whose runs logs are checked.

use crate::random::Random;
use crate::rules::{self, Entry};

/// The one length that is taken.
pub const SIZE: usize = 65_536;

pub struct Kind {
    pub name: &'static str,
    /// How many of a dozen images are of this kind.
    share: usize,
    pub image: fn(&mut Random) -> Vec<u8>,
}

/// Most of them run long; wholly random bytes stop after a step or two.
pub const KINDS: [Kind; 6] = [
    Kind {
        name: "opcodes throughout",
        share: 3,
        image: opcodes_throughout,
    },
    Kind {
        name: "code throughout",
        share: 3,
        image: code_throughout,
    },
    Kind {
        name: "a stretch of code",
        share: 2,
        image: stretch_of_code,
    },
    Kind {
        name: "a loop on blank",
        share: 2,
        image: loop_on_blank,
    },
    Kind {
        name: "random bytes",
        share: 1,
        image: random_bytes,
    },
    Kind {
        name: "another length",
        share: 1,
        image: another_length,
    },
];

/// The place in `KINDS` of the kind that comes at a number, in turn.
pub fn place_of(number: usize) -> usize {
    let dozen = (0..).zip(&KINDS);
    let mut dozen = dozen.flat_map(|(place, kind)| [place].repeat(kind.share));
    let all = KINDS.iter().map(|kind| kind.share).sum::<usize>();
    dozen.nth(number % all).expect("the shares are a dozen")
}

const START: usize = 0xFFFC;
const BREAK: usize = 0xFFFE;

fn put_address(image: &mut [u8], place: usize, address: u16) {
    image[place..place + 2].copy_from_slice(&address.to_le_bytes());
}

/// Puts bytes from an address on, round the end of memory, and gives the address after them.
fn put(image: &mut [u8], address: u16, bytes: &[u8]) -> u16 {
    bytes.iter().fold(address, |address, byte| {
        image[usize::from(address)] = *byte;
        address.wrapping_add(1)
    })
}

/// Lays instructions from an address on, over `size` bytes or a little more, and gives the address after them.
fn lay(
    image: &mut [u8],
    mut address: u16,
    size: usize,
    entries: &[Entry],
    random: &mut Random,
) -> u16 {
    let mut laid = 0;
    while laid < size {
        let entry = random.one_of(entries);
        let code = [entry.opcode, random.byte(), random.byte()];
        let length = usize::from(entry.mode.operand_bytes()) + 1;
        address = put(image, address, &code[..length]);
        laid += length;
    }
    address
}

/// Whether the next instruction is the one that stands after it.
fn goes_on(entry: &Entry) -> bool {
    use rules::Kind::{Inside, Keep, Load, Modify, Pull, Push};
    matches!(entry.kind, Load | Keep | Modify | Push | Pull(1) | Inside)
}

/// Every byte is an opcode, operands too: only the start address and what the program itself stores can stop it.
fn opcodes_throughout(random: &mut Random) -> Vec<u8> {
    let opcodes = rules::opcodes();
    let byte = || random.one_of(&opcodes);
    let mut image: Vec<u8> = std::iter::repeat_with(byte).take(SIZE).collect();
    put_address(&mut image, START, random.address());
    image
}

/// Instructions from the start on, all the way round; a jump may lead between them.
fn code_throughout(random: &mut Random) -> Vec<u8> {
    let mut image = vec![0; SIZE];
    let start = random.address();
    let entries: Vec<Entry> = rules::all().collect();
    lay(&mut image, start, SIZE - 2, &entries, random);
    put_address(&mut image, START, start);
    image
}

/// At most some 4,000 bytes of instructions, one after the other and then into random bytes.
fn stretch_of_code(random: &mut Random) -> Vec<u8> {
    let mut image = random.memory();
    let start = random.address();
    let most = 8 << random.below(10);
    let size = random.below(most);
    let entries: Vec<Entry> = rules::all().filter(goes_on).collect();
    lay(&mut image, start, size, &entries, random);
    put_address(&mut image, START, start);
    image
}

/// A short program that jumps back to its start, on zeros. BRK, which they are, leads to the start too.
fn loop_on_blank(random: &mut Random) -> Vec<u8> {
    let mut image = vec![0; SIZE];
    let start = random.address();
    put_address(&mut image, BREAK, start);
    let size = random.below(64);
    let stays = |entry: &Entry| goes_on(entry) || entry.kind == rules::Kind::Branch;
    let entries: Vec<Entry> = rules::all().filter(stays).collect();
    let end = lay(&mut image, start, size, &entries, random);
    let [low, high] = start.to_le_bytes();
    put(&mut image, end, &[0x4C, low, high]);
    put_address(&mut image, START, start);
    image
}

fn random_bytes(random: &mut Random) -> Vec<u8> {
    let mut image = random.memory();
    put_address(&mut image, START, random.address());
    image
}

/// A program that would run, cut off or with more after it.
fn another_length(random: &mut Random) -> Vec<u8> {
    let mut image = loop_on_blank(random);
    let any = random.below(SIZE);
    let lengths = [0, 1, SIZE - 1, SIZE + 1, 2 * SIZE, any, SIZE + 1 + any];
    image.resize(random.one_of(&lengths), 0);
    image
}
