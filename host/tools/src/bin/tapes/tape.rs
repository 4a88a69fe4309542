//! Paper tapes beside those of srecord: what it writes is read, and what is punched it reads.

use std::ops::Range;

use oracle::images::SIZE;
use saxundeer::tapes::{self, BadText, Place, Unsaved};

use crate::comparison::{Comparison, Plant};
use crate::fault::{Fault, differs, same};
use crate::srecord::{Format, LineEnd, PLAIN, PUNCHED, Read};
use crate::stretches::Order;
use crate::written::{MOST, records};

/// What the tapes of a kind came to: their number, their data records and bytes; those that are read as they stand; those with
/// the number for the sum, and those with too many records, which are refused; and those that srecord does not read itself.
pub const COLUMNS: [(&str, usize); 7] = [
    ("tapes", 6),
    ("records", 9),
    ("bytes", 9),
    ("read", 9),
    ("number for sum", 16),
    ("65536 records", 14),
    ("unread by srecord", 19),
];

type Counts = [usize; COLUMNS.len()];

/// The end record that the rules demand.
fn end_record(records: usize) -> String {
    let number = records as u16;
    let [high, low] = number.to_be_bytes();
    format!(";00{number:04X}{:04X}", u16::from(high) + u16::from(low))
}

/// srecord's has the number in place of the sum, of which only two bytes are there.
fn end_record_of_srecord(records: usize) -> String {
    let number = records as u16;
    format!(";00{number:04X}{number:04X}")
}

/// A tape as srecord spells it.
struct Written {
    text: Vec<u8>,
    line_end: LineEnd,
    records: usize,
    /// Where the end record begins.
    end: usize,
}

impl Written {
    /// The last record is the end record.
    fn of(text: Vec<u8>, line_end: LineEnd) -> Result<Written, Fault> {
        let mut lines = records(&text, line_end, ';')?;
        let Some(last) = lines.pop() else {
            return differs(&text, "srecord wrote no end record");
        };
        let records = lines.len();
        if last != end_record_of_srecord(records) {
            return differs(
                &text,
                format!("srecord ended {records} records with {last}"),
            );
        }
        let end = text.len() - last.len() - line_end.text().len();
        Ok(Written {
            text,
            line_end,
            records,
            end,
        })
    }

    /// With as many of its records as an end record can count, and the end record that the rules demand.
    fn put_right(&self) -> Vec<u8> {
        let kept = self.records.min(MOST);
        let mut text = self.text[..self.end].to_vec();
        if kept < self.records {
            let last = text.iter().rposition(|character| *character == b';');
            text.truncate(last.unwrap_or(0));
        }
        text.extend(end_record(kept).bytes());
        text.extend(self.line_end.text().bytes());
        text
    }

    /// How the rules have it read.
    fn answer(&self) -> Result<u64, BadText> {
        let good = self.records as u64;
        let place = Place {
            good,
            offset: self.end,
        };
        match self.records {
            0..=255 => Ok(good + 1),
            256..=MOST => Err(BadText::WrongSum(place)),
            _ => Err(BadText::NoEnd(place)),
        }
    }

    /// srecord does not read all that it writes.
    fn is_read_by_srecord(&self) -> bool {
        self.line_end != LineEnd::Cr && self.records <= MOST
    }
}

impl Comparison {
    /// What srecord says that a memory is after a tape, and whether it could read that tape itself.
    fn said(&self, order: &Order, tape: &Written, memory: &[u8]) -> Result<(Vec<u8>, bool), Fault> {
        match (
            self.srecord.laid(Format::Tape, &tape.text, memory)?,
            tape.is_read_by_srecord(),
        ) {
            (Read::Bytes(after), true) => Ok((after, true)),
            (Read::Refused(_), false) => {
                let plain = self.srecord.tape(&order.image, &order.stretches, PLAIN)?;
                match self.srecord.laid(Format::Tape, &plain, memory)? {
                    Read::Bytes(after) => Ok((after, false)),
                    Read::Refused(why) => {
                        differs(&plain, format!("srecord refuses its own: {why}"))
                    }
                }
            }
            (Read::Bytes(_), false) => {
                differs(&tape.text, "srecord reads what is listed as unread")
            }
            (Read::Refused(why), true) => {
                differs(&tape.text, format!("srecord refuses its own: {why}"))
            }
        }
    }

    /// Has srecord write a tape, and reads it. It gives the counts of the tape's columns.
    pub fn load(&mut self, order: &Order, is_last: bool) -> Result<Counts, Fault> {
        let Order {
            image,
            stretches,
            spelling,
        } = order;
        let text = self.srecord.tape(image, stretches, *spelling)?;
        let tape = Written::of(text, spelling.line_end)?;
        let before = self.random.memory();
        let (after, is_read) = self.said(order, &tape, &before)?;
        let expected = order.laid_over(&before);
        same(
            &tape.text,
            "srecord was given and says",
            0,
            &expected,
            &after,
        )?;

        let right = tape.put_right();
        let mut memory = before.clone();
        let taken = if self.plant == Plant::End {
            &right
        } else {
            &tape.text
        };
        let answer = tapes::load(taken, &mut memory);
        if answer != tape.answer() {
            let what = format!("load answers {answer:?} and not {:?}", tape.answer());
            return differs(&tape.text, what);
        }
        if answer.is_err() {
            same(
                &tape.text,
                "there were before and after a refusal",
                0,
                &before,
                &memory,
            )?;
            self.rescue(&tape, &before, &after)?;
            let answer = tapes::load(&right, &mut memory);
            if answer != Ok(tape.records.min(MOST) as u64 + 1) {
                return differs(
                    &right,
                    format!("load answers {answer:?} to what was put right"),
                );
            }
        }
        if self.plant == Plant::Load && is_last {
            memory[stretches[0].start] ^= 1;
        }
        // What cannot be counted is one byte a record, the last at FFFF.
        let compared = SIZE - tape.records.saturating_sub(MOST);
        same(
            &tape.text,
            "srecord says and load leaves",
            0,
            &after[..compared],
            &memory[..compared],
        )?;
        same(
            &tape.text,
            "there were before and after, where no record is,",
            compared,
            &before[compared..],
            &memory[compared..],
        )?;
        let answer = tape.answer();
        Ok([
            1,
            tape.records,
            stretches.iter().map(Range::len).sum(),
            usize::from(answer.is_ok()),
            usize::from(matches!(answer, Err(BadText::WrongSum(_)))),
            usize::from(matches!(answer, Err(BadText::NoEnd(_)))),
            usize::from(!is_read),
        ])
    }

    /// Of a tape that is refused for its end record, all the rest can be saved.
    fn rescue(&self, tape: &Written, before: &[u8], after: &[u8]) -> Result<(), Fault> {
        let mut out = vec![0; 2 * tape.text.len()];
        let saved = tapes::rescue(&tape.text, &mut out);
        if tape.records > MOST {
            return match saved {
                Err(Unsaved::TooMany) => Ok(()),
                _ => differs(&tape.text, format!("rescue answers {saved:?}")),
            };
        }
        match saved {
            Ok(saved)
                if (saved.kept, saved.dropped, saved.first_dropped)
                    == (tape.records as u64, 1, tape.end) =>
            {
                let mut memory = before.to_vec();
                let answer = tapes::load(&out[..saved.size], &mut memory);
                if answer != Ok(saved.kept + 1) {
                    return differs(&tape.text, format!("what is rescued loads with {answer:?}"));
                }
                same(
                    &tape.text,
                    "srecord says and rescue leaves",
                    0,
                    after,
                    &memory,
                )
            }
            _ => differs(&tape.text, format!("rescue answers {saved:?}")),
        }
    }

    /// Punches a stretch, and has srecord read it and write it too. It gives the number of records.
    pub fn punch(&mut self, stretch: &Range<usize>, is_last: bool) -> Result<usize, Fault> {
        let mut memory = self.random.memory();
        let bytes = memory[stretch.clone()].to_vec();
        let stretches = std::slice::from_ref(stretch);
        let theirs = self.srecord.tape(&memory, stretches, PUNCHED)?;
        let theirs = Written::of(theirs, PUNCHED.line_end)?;
        if self.plant == Plant::Punch && is_last {
            memory[stretch.end - 1] ^= 1;
        }
        let mut text = vec![0; tapes::LONGEST_PUNCHED];
        let [first, last] = [stretch.start, stretch.end - 1].map(|address| address as u16);
        match tapes::punch(&memory, first, last, &mut text) {
            Ok(size) => text.truncate(size),
            Err(why) => return differs(&[], format!("{why:?}")),
        }
        match self.srecord.bytes(Format::Tape, &text, stretch.start)? {
            Read::Bytes(read) => {
                same(
                    &text,
                    "in memory are and srecord reads",
                    stretch.start,
                    &bytes,
                    &read,
                )?;
            }
            Read::Refused(why) => return differs(&text, format!("srecord refuses it: {why}")),
        }
        if theirs.put_right() != text {
            return differs(&text, "srecord writes the stretch otherwise");
        }
        self.move_punched(&memory, stretch, &text)?;
        Ok(theirs.records)
    }
}
