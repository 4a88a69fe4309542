//! Intel HEX beside that of srecord: what it writes is read and moved to a tape and back, and what is moved from a tape it reads.

use std::ops::Range;

use oracle::images::SIZE;
use saxundeer::tapes::{self, BadText, Place};

use crate::comparison::{Comparison, Plant};
use crate::fault::{Fault, differs, same};
use crate::srecord::{Format, LineEnd, PUNCHED, Read};
use crate::stretches::Order;
use crate::written::{MOST, records};

/// What the HEX of a kind came to: the number of texts, their data records and bytes; those that are read as they stand; those
/// with too many records; those that srecord does not read itself; and those of other types, which are refused.
pub const COLUMNS: [(&str, usize); 7] = [
    ("texts", 6),
    ("records", 9),
    ("bytes", 9),
    ("read", 9),
    ("65536 records", 15),
    ("unread by srecord", 19),
    ("refused other types", 20),
];

type Counts = [usize; COLUMNS.len()];

const END: &str = ":00000001FF";
const CR_LF: &str = "\r\n";

/// HEX as srecord spells it.
struct Written {
    text: Vec<u8>,
    line_end: LineEnd,
    /// The data records.
    records: usize,
    /// Where the first record begins that no reader of data records takes: the 65,536th, or the end record.
    end: usize,
}

impl Written {
    /// The last record alone has the type 01.
    fn of(text: Vec<u8>, line_end: LineEnd) -> Result<Written, Fault> {
        let mut lines = records(&text, line_end, ':')?;
        let last = lines.pop();
        if last != Some(END) {
            return differs(&text, format!("srecord ended with {last:?}"));
        }
        if !lines.iter().all(|line| line.get(7..9) == Some("00")) {
            return differs(&text, "srecord wrote another type");
        }
        let end = lines.iter().take(MOST);
        let end = end.map(|line| line.len() + line_end.text().len()).sum();
        let records = lines.len();
        Ok(Written {
            text,
            line_end,
            records,
            end,
        })
    }

    fn answer(&self) -> Result<u64, BadText> {
        match self.records {
            0..=MOST => Ok(self.records as u64 + 1),
            _ => Err(BadText::NoEnd(self.place())),
        }
    }

    fn place(&self) -> Place {
        Place {
            good: self.records.min(MOST) as u64,
            offset: self.end,
        }
    }

    /// With as many of its records as can be counted.
    fn counted(&self) -> Vec<u8> {
        let mut text = self.text[..self.end].to_vec();
        text.extend(END.bytes());
        text.extend(self.line_end.text().bytes());
        text
    }

    /// In the one spelling that the moves write.
    fn spelled(&self) -> Vec<u8> {
        let counted = self.counted();
        let text = String::from_utf8_lossy(&counted);
        text.replace(self.line_end.text(), CR_LF).into_bytes()
    }

    /// srecord does not read CR, which it writes where it is asked for.
    fn is_read_by_srecord(&self) -> bool {
        self.line_end != LineEnd::Cr
    }
}

/// A text in the other format.
fn moved(
    what: &str,
    function: fn(&[u8], &mut [u8]) -> Result<usize, tapes::Unmoved>,
    text: &[u8],
) -> Result<Vec<u8>, Fault> {
    let mut out = vec![0; 2 * text.len()];
    match function(text, &mut out) {
        Ok(size) => {
            out.truncate(size);
            Ok(out)
        }
        Err(why) => differs(text, format!("{what} answers {why:?}")),
    }
}

impl Comparison {
    /// Has srecord write HEX, reads it, and moves it to a tape and back. It gives the counts of the columns.
    pub fn load_hex(&mut self, order: &Order, is_last: bool) -> Result<Counts, Fault> {
        let Order {
            image,
            stretches,
            spelling,
        } = order;
        let text = self.srecord.hex(image, stretches, *spelling, 2, None)?;
        let hex = Written::of(text, spelling.line_end)?;
        let before = self.hex_random.memory();
        let mut expected = order.laid_over(&before);
        match (
            self.srecord.laid(Format::Hex, &hex.text, &before)?,
            hex.is_read_by_srecord(),
        ) {
            (Read::Bytes(after), true) => {
                same(
                    &hex.text,
                    "srecord was given and says",
                    0,
                    &expected,
                    &after,
                )?;
            }
            (Read::Refused(_), false) => {}
            (Read::Bytes(_), false) => return differs(&hex.text, "srecord reads CR"),
            (Read::Refused(why), true) => {
                return differs(&hex.text, format!("srecord refuses its own: {why}"));
            }
        }

        let mut memory = before.clone();
        let answer = tapes::load_hex(&hex.text, &mut memory);
        if answer != hex.answer() {
            let what = format!("load answers {answer:?} and not {:?}", hex.answer());
            return differs(&hex.text, what);
        }
        let counted = hex.counted();
        if answer.is_err() {
            same(
                &hex.text,
                "there were before and after a refusal",
                0,
                &before,
                &memory,
            )?;
            let answer = tapes::load_hex(&counted, &mut memory);
            if answer != Ok(MOST as u64 + 1) {
                return differs(
                    &counted,
                    format!("load answers {answer:?} to 65,535 records"),
                );
            }
            // What cannot be counted is one byte a record, the last at FFFF.
            expected[SIZE - 1] = before[SIZE - 1];
        }
        if self.plant == Plant::Hex && is_last {
            memory[stretches[0].start] ^= 1;
        }
        same(
            &hex.text,
            "srecord was given and load leaves",
            0,
            &expected,
            &memory,
        )?;

        let tape = moved("hex_to_tape", tapes::hex_to_tape, &counted)?;
        let mut copy = before.clone();
        let answer = tapes::load(&tape, &mut copy);
        if answer != Ok(hex.place().good + 1) {
            return differs(&tape, format!("the moved tape loads with {answer:?}"));
        }
        same(&tape, "HEX leaves and its tape leaves", 0, &memory, &copy)?;
        if moved("tape_to_hex", tapes::tape_to_hex, &tape)? != hex.spelled() {
            return differs(&tape, "HEX moved there and back is another text");
        }
        self.refuse_other_types(order, &hex, &before)?;
        Ok([
            1,
            hex.records,
            stretches.iter().map(Range::len).sum(),
            usize::from(hex.answer().is_ok()),
            usize::from(hex.answer().is_err()),
            usize::from(!hex.is_read_by_srecord()),
            1,
        ])
    }

    /// What srecord writes of the same image with other types, or with another end record, is refused there.
    fn refuse_other_types(
        &mut self,
        order: &Order,
        hex: &Written,
        before: &[u8],
    ) -> Result<(), Fault> {
        let Order {
            image,
            stretches,
            spelling,
        } = order;
        // An address of 3 or 4 bytes begins with a record of type 02 or 04, and a start is told by one of type 03 or 05 before
        // the end record. With 2 bytes it stands in the end record.
        let kind = self.hex_random.below(5);
        let address_bytes = [2, 3, 4, 3, 4][kind];
        let starts = kind < 3;
        let start = starts.then_some(0x0200);
        let mut text = self
            .srecord
            .hex(image, stretches, *spelling, address_bytes, start)?;
        if starts && address_bytes > 2 {
            // The first record has a count of 02.
            text.drain(..15 + spelling.line_end.text().len());
        }
        let place = match (starts, hex.answer()) {
            (true, Err(bad)) => bad,
            (true, Ok(_)) => BadText::Malformed(hex.place()),
            (false, _) => BadText::Malformed(Place { good: 0, offset: 0 }),
        };
        let mut memory = before.to_vec();
        let answer = tapes::load_hex(&text, &mut memory);
        if answer != Err(place) {
            return differs(&text, format!("load answers {answer:?} and not {place:?}"));
        }
        same(
            &text,
            "there were before and after a refusal",
            0,
            before,
            &memory,
        )?;
        let mut out = vec![0xEA; 2 * text.len()];
        let answer = tapes::hex_to_tape(&text, &mut out);
        if answer != Err(tapes::Unmoved::Bad(place)) || out.iter().any(|byte| *byte != 0xEA) {
            return differs(&text, format!("hex_to_tape answers {answer:?}"));
        }
        Ok(())
    }

    /// Moves a tape that was punched to HEX, and has srecord read that and write it too.
    pub fn move_punched(
        &mut self,
        memory: &[u8],
        stretch: &Range<usize>,
        tape: &[u8],
    ) -> Result<(), Fault> {
        let hex = moved("tape_to_hex", tapes::tape_to_hex, tape)?;
        match self.srecord.bytes(Format::Hex, &hex, stretch.start)? {
            Read::Bytes(read) => {
                let bytes = &memory[stretch.clone()];
                same(
                    &hex,
                    "in memory are and srecord reads",
                    stretch.start,
                    bytes,
                    &read,
                )?;
            }
            Read::Refused(why) => return differs(&hex, format!("srecord refuses it: {why}")),
        }
        let stretches = std::slice::from_ref(stretch);
        if self.srecord.hex(memory, stretches, PUNCHED, 2, None)? != hex {
            return differs(&hex, "srecord writes the stretch otherwise");
        }
        if moved("hex_to_tape", tapes::hex_to_tape, &hex)? != tape {
            return differs(&hex, "a tape moved there and back is another text");
        }
        Ok(())
    }
}
