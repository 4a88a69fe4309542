//! Small texts that only one of the two reads, each the smallest of its cause.

use oracle::images::SIZE;
use saxundeer::tapes::{self, BadText, Place};

use crate::fault::{Fault, differs, same};
use crate::srecord::{Format, PLAIN, Read, Srecord};

struct Listed {
    what: &'static str,
    text: &'static str,
    /// The bytes that srecord reads, from 0000 on; nothing where it refuses the text.
    srecord: Option<&'static [u8]>,
    /// The address of the first of these, where they do not stand at 0000.
    from: usize,
    /// The answer of `load`, and what stands at 0000 then.
    load: Result<(u64, u8), BadText>,
}

/// Every byte of the memory that they are read onto, and none of theirs.
const BLANK: u8 = 0xEA;

const fn at(good: u64, offset: usize) -> Place {
    Place { good, offset }
}

const TAPES: [Listed; 11] = [
    Listed {
        what: "small digits",
        text: ";010000A000a1\n;0000010001\n",
        srecord: Some(&[0xA0]),
        from: 0,
        load: Err(BadText::Malformed(at(0, 0))),
    },
    Listed {
        what: "no end record",
        text: ";010000000001\n",
        srecord: Some(&[0]),
        from: 0,
        load: Err(BadText::NoEnd(at(1, 14))),
    },
    Listed {
        what: "nothing",
        text: "",
        srecord: Some(&[]),
        from: 0,
        load: Err(BadText::NoEnd(at(0, 0))),
    },
    Listed {
        what: "an end record of a count",
        text: ";00\n",
        srecord: Some(&[]),
        from: 0,
        load: Err(BadText::Malformed(at(0, 0))),
    },
    Listed {
        what: "a line that is no record",
        text: "x\n;010000000001\n;0000010001\n",
        srecord: Some(&[0]),
        from: 0,
        load: Err(BadText::Malformed(at(0, 0))),
    },
    Listed {
        what: "more after the end record",
        text: ";0000000000\nx",
        srecord: Some(&[]),
        from: 0,
        load: Err(BadText::Malformed(at(1, 12))),
    },
    Listed {
        what: "a byte past FFFF",
        text: ";02FFFF01020203\n;0000010001\n",
        srecord: Some(&[1, 2]),
        from: 0xFFFF,
        load: Err(BadText::PastTheEnd(at(0, 0))),
    },
    Listed {
        what: "no line end",
        text: ";010000A900AA;0000010001",
        srecord: None,
        from: 0,
        load: Ok((2, 0xA9)),
    },
    Listed {
        what: "CR alone",
        text: ";0000000000\r",
        srecord: None,
        from: 0,
        load: Ok((1, BLANK)),
    },
    Listed {
        what: "NUL before the line end",
        text: ";0000000000\0",
        srecord: None,
        from: 0,
        load: Ok((1, BLANK)),
    },
    Listed {
        what: "another byte at one address",
        text: ";010000A900AA\n;010000AA00AB\n;0000020002",
        srecord: None,
        from: 0,
        load: Ok((3, 0xAA)),
    },
];

const HEXES: [Listed; 16] = [
    Listed {
        what: "small digits",
        text: ":01000000a05F\n:00000001FF\n",
        srecord: Some(&[0xA0]),
        from: 0,
        load: Err(BadText::Malformed(at(0, 0))),
    },
    Listed {
        what: "no end record",
        text: ":0100000000FF\n",
        srecord: Some(&[0]),
        from: 0,
        load: Err(BadText::NoEnd(at(1, 14))),
    },
    Listed {
        what: "an end record with a start",
        text: ":0100000000FF\n:00020001FD\n",
        srecord: Some(&[0]),
        from: 0,
        load: Err(BadText::Malformed(at(1, 14))),
    },
    Listed {
        what: "an empty data record",
        text: ":0000000000\n:01000000A956\n:00000001FF\n",
        srecord: Some(&[0xA9]),
        from: 0,
        load: Err(BadText::Malformed(at(0, 0))),
    },
    Listed {
        what: "type 02",
        text: ":020000020000FC\n:01000000A956\n:00000001FF\n",
        srecord: Some(&[0xA9]),
        from: 0,
        load: Err(BadText::Malformed(at(0, 0))),
    },
    Listed {
        what: "type 03",
        text: ":0400000300000200F7\n:01000000A956\n:00000001FF\n",
        srecord: Some(&[0xA9]),
        from: 0,
        load: Err(BadText::Malformed(at(0, 0))),
    },
    Listed {
        what: "type 04",
        text: ":020000040000FA\n:01000000A956\n:00000001FF\n",
        srecord: Some(&[0xA9]),
        from: 0,
        load: Err(BadText::Malformed(at(0, 0))),
    },
    Listed {
        what: "type 05",
        text: ":0400000500000200F5\n:01000000A956\n:00000001FF\n",
        srecord: Some(&[0xA9]),
        from: 0,
        load: Err(BadText::Malformed(at(0, 0))),
    },
    Listed {
        what: "a line that is no record",
        text: "x\n:0100000000FF\n:00000001FF\n",
        srecord: Some(&[0]),
        from: 0,
        load: Err(BadText::Malformed(at(0, 0))),
    },
    Listed {
        what: "more after the end record",
        text: ":0100000000FF\n:00000001FF\nx",
        srecord: Some(&[0]),
        from: 0,
        load: Err(BadText::Malformed(at(2, 26))),
    },
    Listed {
        what: "a byte past FFFF",
        text: ":02FFFF000102FD\n:00000001FF\n",
        srecord: Some(&[1, 2]),
        from: 0xFFFF,
        load: Err(BadText::PastTheEnd(at(0, 0))),
    },
    Listed {
        what: "no data",
        text: ":00000001FF\n",
        srecord: None,
        from: 0,
        load: Ok((1, BLANK)),
    },
    Listed {
        what: "no line end",
        text: ":01000000A956:00000001FF",
        srecord: None,
        from: 0,
        load: Ok((2, 0xA9)),
    },
    Listed {
        what: "CR alone",
        text: ":01000000A956\n:00000001FF\r",
        srecord: None,
        from: 0,
        load: Ok((2, 0xA9)),
    },
    Listed {
        what: "NUL before the line end",
        text: ":01000000A956\n:00000001FF\0",
        srecord: None,
        from: 0,
        load: Ok((2, 0xA9)),
    },
    Listed {
        what: "another byte at one address",
        text: ":01000000A956\n:01000000AA55\n:00000001FF\n",
        srecord: None,
        from: 0,
        load: Ok((3, 0xAA)),
    },
];

fn compare_one(srecord: &Srecord, format: Format, listed: &Listed) -> Result<(), Fault> {
    let text = listed.text.as_bytes();
    match (srecord.bytes(format, text, listed.from)?, listed.srecord) {
        (Read::Bytes(read), Some(bytes)) => {
            same(
                text,
                "are listed and srecord reads",
                listed.from,
                bytes,
                &read,
            )?;
        }
        (Read::Refused(_), None) => {}
        (Read::Bytes(_), None) => {
            return differs(text, "srecord reads it");
        }
        (Read::Refused(why), Some(_)) => {
            return differs(text, format!("srecord refuses it: {why}"));
        }
    }
    let mut memory = vec![BLANK; SIZE];
    let answer = match format {
        Format::Tape => tapes::load(text, &mut memory),
        Format::Hex => tapes::load_hex(text, &mut memory),
    };
    if answer != listed.load.map(|(records, _)| records) {
        return differs(text, format!("load answers {answer:?}"));
    }
    let mut expected = vec![BLANK; SIZE];
    if let Ok((_, byte)) = listed.load {
        expected[0] = byte;
    }
    same(text, "are listed and load leaves", 0, &expected, &memory)
}

fn compare_all(
    srecord: &Srecord,
    format: Format,
    name: &str,
    listed: &[Listed],
) -> Result<(), Fault> {
    for one in listed {
        compare_one(srecord, format, one).map_err(|fault| fault.of(one.what))?;
    }
    let read = listed.iter().filter(|one| one.srecord.is_some()).count();
    println!(
        "{} small {name}: {read} that only srecord reads, {} that only load reads, as is listed",
        listed.len(),
        listed.len() - read
    );
    Ok(())
}

pub fn compare(srecord: &Srecord) -> Result<(), Fault> {
    compare_all(srecord, Format::Tape, "tapes", &TAPES)?;
    let nothing = srecord.tape(&[], &[], PLAIN)?;
    if !nothing.is_empty() {
        return differs(&nothing, "srecord writes a tape of no bytes");
    }
    compare_all(srecord, Format::Hex, "texts of HEX", &HEXES)
}
