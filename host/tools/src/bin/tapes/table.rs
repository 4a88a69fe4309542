//! A table of counts, with a row for each kind of image and one for all.

use crate::stretches::KINDS;

pub struct Table<const COLUMNS: usize> {
    title: &'static str,
    /// Their heads, and how wide they are.
    columns: [(&'static str, usize); COLUMNS],
    rows: [[usize; COLUMNS]; KINDS.len()],
}

impl<const COLUMNS: usize> Table<COLUMNS> {
    pub fn new(title: &'static str, columns: [(&'static str, usize); COLUMNS]) -> Table<COLUMNS> {
        Table {
            title,
            columns,
            rows: [[0; COLUMNS]; KINDS.len()],
        }
    }

    /// Adds to the row of a kind, by its place in `KINDS`.
    pub fn add(&mut self, kind: usize, counts: [usize; COLUMNS]) {
        for (sum, count) in self.rows[kind].iter_mut().zip(counts) {
            *sum += count;
        }
    }

    fn print_row(&self, name: &str, cells: impl Iterator<Item = String>) {
        print!("{name:22}");
        for (cell, (_, width)) in cells.zip(self.columns) {
            print!("{cell:>width$}");
        }
        println!();
    }

    pub fn print(&self) {
        let heads = self.columns.map(|(head, _)| head.to_string());
        self.print_row(self.title, heads.into_iter());
        let mut all = [0; COLUMNS];
        for (kind, row) in KINDS.iter().zip(&self.rows) {
            self.print_row(kind.name, row.iter().map(usize::to_string));
            for (sum, count) in all.iter_mut().zip(row) {
                *sum += count;
            }
        }
        self.print_row("all", all.iter().map(usize::to_string));
    }
}
