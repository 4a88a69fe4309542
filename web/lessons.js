// lessons.js: the lessons: each with its image, what is said of it, and its points. A point is what the teacher does, as a list of the
// page's own actions, and what is then to be seen. `doc` is the page of docs/ that the lesson is taken from.
import { SIZE } from "./core.js";

// The bytes of a text of hexadecimal digits, laid at an address onto zeros, with the start address 0200.
export function imageOf(stretches) {
    const image = new Uint8Array(SIZE);
    for (const [address, digits] of [["FFFC", "00 02"], ...stretches]) {
        digits.split(" ").forEach((digit, index) => { image[parseInt(address, 16) + index] = parseInt(digit, 16); });
    }
    return image;
}

const COPY = [["0200", "A2 00 BD 00 03 9D 00 04 E8 D0 F7 02"], ["0300", "53 41 58 55 4E 44 45 45 52"]];
const HONEST = [
    "0 0200 00 00 00 FF 34", "2 0202 05 00 00 FF 34", "6 0205 05 00 00 FF 34", "8 0207 00 00 00 FF 36", "12 020A 05 00 00 FF 34",
];
const FORGETFUL = [...HONEST.slice(0, 4), "12 020A 00 00 00 FF 36"];

export const LESSONS = [
    {
        id: "finished", title: "It came back is not it finished", name: "copy.img", image: COPY,
        text: "A 6502 has no instruction for “finished”. A program must end at a byte that is no opcode. This one copies page 03 to " +
            "page 04, and is meant to end at 020B.",
        points: [
            { say: "A bad copy of the image: the byte at 0205 is 02. Run it, with no address where it is meant to end.",
                do: [["load", [...COPY, ["0205", "02"]]], ["goal", ""], ["page", 4], ["run"]],
                see: "It came back, after 2 steps. The copy was not made: page 04 is still 00. An emulator that only comes back here " +
                    "has lost the book." },
            { say: "The good image, still with no address.",
                do: [["load", COPY], ["page", 4], ["run"]],
                see: "All is copied, and the answer is red all the same. Nobody has said where the program is meant to end, so no end " +
                    "counts as finished." },
            { say: "Say it: meant to end at 020B. Run the bad copy once more.",
                do: [["load", [...COPY, ["0205", "02"]]], ["goal", "020B"], ["run"]],
                see: "It broke off at 0205. Now the page can tell the two apart." },
            { say: "The good image, for 1,000 steps.",
                do: [["load", COPY], ["run", 1000]],
                see: "It was still running. That is no end either: do not take the memory as finished." },
            { say: "Let it go on.",
                do: [["run"]],
                see: "Only this is finished: a byte that is no opcode, at the address where the program was meant to end." },
        ],
    },
    {
        id: "borrow", title: "The borrow: SBC", name: "borrow.img", doc: "READING",
        image: [["0200", "38 A9 05 E9 03 38 A9 FF E9 80 18 A9 7F E9 80 02"]],
        text: "SBC takes the byte M from A, and one more if the carry C is clear: A − M − (1 − C). So C is the opposite of a borrow. " +
            "V says whether the difference of the signed bytes fell outside −128 to 127.",
        points: [
            { say: "05 − 03, with C set before it. Three steps: SEC, LDA, SBC.",
                do: [["start"], ["goal", "020F"], ["page", 2], ["step", 3]],
                see: "A is 02. Nothing had to be borrowed, so C stays 1. V is 0." },
            { say: "FF − 80. Do it by hand first, unsigned and signed. Then three steps.", do: [["step", 3]],
                see: "Unsigned: 255 − 128 = 127, nothing is borrowed, C is 1. Signed: −1 − (−128) = 127 fits a byte, V is 0." },
            { say: "7F − 80, with C clear: one more is taken. Three steps.", do: [["step", 3]],
                see: "127 − 128 − 1 is below 0: A is FE, C is 0, it had to borrow. Signed it is 127 + 128 − 1 = 254, which does not " +
                    "fit: V is 1. N is the top bit of FE." },
            { say: "Run to the end.",
                do: [["run"]],
                see: "It ended where it was meant to. The code adds the complement of M, and a theorem says that this is the " +
                    "difference, with C and V: read the page." },
        ],
    },
    {
        id: "sealed", title: "The sealed page", name: "letter.img", doc: "OATH",
        image: [["0200", "A2 00 BD 00 03 9D 00 04 E8 D0 F7 AD 12 04 02"], COPY[1]],
        text: "The program copies page 03 to page 04, and then loads the byte at 0412. A clerk is asked to swear that page 04 stayed " +
            "out of what is handed out.",
        points: [
            { say: "Run to the load, at 020B. Look at the next step before it is made.",
                do: [["start"], ["goal", "020E"], ["to", "020B"], ["page", 4]],
                see: "It will read 020B, 020C and 020D, its own bytes, and then 0412. All reads of a step are known before it." },
            { say: "Begin again with page 04 sealed, and run.", do: [["start"], ["seal", "0400-04FF"], ["page", 4], ["run"]],
                see: "1,025 steps were made. The copy only stored into the sealed page, which gives nothing away. The load would read " +
                    "there, so the run is halted before it." },
            { say: "Seal page 05 in its place. The program does not touch it.",
                do: [["start"], ["seal", "0500-05FF"], ["page", 5], ["run"]],
                see: "It ended, and no byte of page 05 was read. So the same would have come out whatever stood there: that is the " +
                    "oath, and it is a theorem." },
        ],
    },
    {
        id: "bell", title: "The door bell: IRQ and NMI", name: "bell.img", doc: "BELL",
        image: [["0200", "58 4C 01 02"], ["0300", "E6 10 40"], ["0400", "02"], ["FFFA", "00 04"], ["FFFE", "00 03"]],
        text: "The program clears I and waits at 0201. The door bell is on IRQ: its routine at 0300 counts the rings at 0010. The " +
            "power watch is on NMI: it leads to 0400, where the program is meant to end.",
        points: [
            { say: "Ten steps with both lines high.", do: [["start"], ["goal", "0400"], ["page", 1], ["step", 10]],
                see: "It waits. I is clear, so it can be interrupted." },
            { say: "Somebody rings: IRQ is low. One step.", do: [["lever", "IRQ", "low"], ["step", 1]],
                see: "No opcode was read. The counter and the status byte are on the stack, I is set, and the counter is what stands " +
                    "at FFFE. That takes 7 cycles." },
            { say: "The routine counts, one step. The bell is still held.", do: [["step", 1], ["page", 0]],
                see: "I is set, so the held bell does not interrupt its own routine. The byte at 0010 is 01." },
            { say: "Let go, and one step: RTI.", do: [["lever", "IRQ", "high"], ["step", 1], ["page", 1]],
                see: "RTI pulls the status byte, with the old I, and the counter as it was. Had the bell still been held, it would be " +
                    "served again." },
            { say: "The power fails: NMI falls. One step.", do: [["lever", "NMI", "low"], ["step", 1]],
                see: "NMI is served once for each fall, also if I is set. Its vector is FFFA." },
            { say: "Run on.", do: [["run"]], see: "At 0400 no opcode stands, and that is where the program is meant to end." },
        ],
    },
    {
        id: "log", title: "What an accepted log shows", name: "store.img", doc: "TRACES",
        image: [["0200", "A9 05 8D 00 03 A9 00 AD 00 03 02"]],
        text: "Another emulator ran this image and printed a log: the state before each step and after the last. Each line but the " +
            "first has to follow from the one before.",
        points: [
            { say: "Make the four steps.", do: [["start"], ["goal", "020A"], ["page", 3], ["step", 4]],
                see: "05 is stored at 0300, A is cleared, and 05 is loaded again." },
            { say: "Check the log of an honest emulator.", do: [["log", HONEST]], see: "Each line follows, to the last flag and cycle." },
            { say: "Check one line alone.", do: [["log", ["77 1234 AB CD EF 12 FF"]]],
                see: "It is accepted too. The first line may be any state: acceptance shows nothing about where a run began, or that " +
                    "it ended." },
            { say: "Check the log of an emulator whose STA stores nothing.", do: [["log", FORGETFUL]],
                see: "Its first four lines are honest. There is no memory in a log. Only the fifth, after 0300 was read, shows it." },
        ],
    },
];
