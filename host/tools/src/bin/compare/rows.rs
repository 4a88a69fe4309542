//! The rows of the two tables, and the lists below them.

use oracle::known;

/// A sentence for what is listed, and the counts by opcode.
pub fn print_listed(sentence: &str, counts: &[u64; 256]) {
    let by_opcode = (0..=0xFF_u8).zip(counts);
    let by_opcode = by_opcode.filter(|(_, count)| **count > 0);
    let by_opcode: Vec<String> = by_opcode
        .map(|(opcode, count)| format!("{opcode:02X} {count}"))
        .collect();
    println!("listed: {sentence}");
    println!("  by opcode: {}", by_opcode.join(", "));
}

/// The steps of a part and how many of them differ, by what is listed.
pub struct Row {
    pub name: String,
    pub steps: u64,
    pub listed: [u64; known::ALL.len()],
}

impl Row {
    pub fn print(&self) {
        let equal = self.steps - self.listed.iter().sum::<u64>();
        print!("{:26}{:10}{equal:12}", self.name, self.steps);
        println!(
            "{}",
            self.listed.map(|count| format!("{count:16}")).concat()
        );
    }
}

/// The port's steps of a part with lines, by what they were: an opcode, a line, a refusal.
pub struct LineRow {
    pub name: &'static str,
    pub counts: [u64; 5],
}

impl LineRow {
    pub const HEADS: [&'static str; 6] = [
        "steps",
        "opcodes",
        "NMI served",
        "IRQ served",
        "refused, 2",
        "refused, 3",
    ];

    pub fn print(&self) {
        let all = self.counts.iter().sum::<u64>();
        let counts = self.counts.map(|count| format!("{count:12}"));
        println!("{:26}{all:10}{}", self.name, counts.concat());
    }
}
