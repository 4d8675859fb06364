//! Memory to lend: head, table and entries in one stretch of bytes, with guard bytes before, between and behind. The
//! parts stand at any addresses that their types allow, so that none is better aligned than C promises.

use crate::random::Random;
use model::records::{Block, Head};

const GUARD: usize = 64;

/// One stretch of bytes with three parts to lend.
#[derive(Clone)]
pub struct Memory {
    words: Vec<u64>,
    head: usize,
    table: usize,
    records: usize,
    entries: usize,
    labels: usize,
}

const _: () = assert!(size_of::<Head>() == size_of::<lbq::Head>() && align_of::<Head>() == align_of::<lbq::Head>());
const _: () = assert!(size_of::<Block>() == size_of::<lbq::Block>() && align_of::<Block>() == align_of::<lbq::Block>());

impl Memory {
    /// Memory with this many records and entries to lend, full of random bits.
    pub fn new(random: &mut Random, records: usize, labels: usize) -> Self {
        let mut after = |end: usize, align: usize| (end + GUARD + random.below(16) as usize).next_multiple_of(align);
        let head = after(0, align_of::<Head>());
        let table = after(head + size_of::<Head>(), align_of::<Block>());
        let entries = after(table + records * size_of::<Block>(), align_of::<u32>());
        let end = after(entries + labels * size_of::<u32>(), size_of::<u64>());
        let words = (0..end / size_of::<u64>()).map(|_| random.next()).collect();
        Self { words, head, table, records, entries, labels }
    }

    /// The parts by address, with the two lengths.
    pub fn lend(&mut self) -> (*mut lbq::Head, *mut lbq::Block, usize, *mut u32, usize) {
        let base = self.words.as_mut_ptr().cast::<u8>();
        let (records, labels) = (self.records, self.labels);
        // SAFETY: the offsets are those of `new`, inside the words.
        unsafe {
            (base.add(self.head).cast(), base.add(self.table).cast(), records, base.add(self.entries).cast(), labels)
        }
    }

    /// The parts as the library's records.
    pub fn lent(&mut self) -> lbq::LineMut<'_> {
        let (head, table, records, entries, labels) = self.lend();
        // SAFETY: the parts are aligned, apart, inside the words and borrowed with them; any bits make such a record.
        unsafe {
            let table = std::slice::from_raw_parts_mut(table, records);
            let entries = std::slice::from_raw_parts_mut(entries, labels);
            lbq::LineMut::over(&mut *head, table, entries)
        }
    }

    /// The parts as the model's records.
    pub fn parts(&mut self) -> (&mut Head, &mut [Block], &mut [u32]) {
        let (head, table, records, entries, labels) = self.lend();
        // SAFETY: as in `lent`; the model's records are laid out as the library's.
        unsafe {
            let table = std::slice::from_raw_parts_mut(table.cast(), records);
            let entries = std::slice::from_raw_parts_mut(entries, labels);
            (&mut *head.cast(), table, entries)
        }
    }

    /// Head and table as the model's records, to read.
    #[must_use]
    pub fn records(&self) -> (&Head, &[Block]) {
        let base = self.words.as_ptr().cast::<u8>();
        // SAFETY: the offsets are those of `new`; the parts are aligned, inside the words and borrowed with them.
        unsafe { (&*base.add(self.head).cast(), std::slice::from_raw_parts(base.add(self.table).cast(), self.records)) }
    }

    /// Whether every byte is the same, guard bytes too.
    #[must_use]
    pub fn same(&self, other: &Self) -> bool {
        self.words == other.words
    }

    /// What differs from another memory of the same layout, by name; at most a dozen lines.
    #[must_use]
    pub fn differences(&self, other: &Self) -> Vec<String> {
        let (mine, others) = (self.bytes(), other.bytes());
        let mut lines = Vec::new();
        let mut at = 0;
        while at < mine.len() && lines.len() < 12 {
            let (name, start, width) = self.field(at);
            let number = |bytes: &[u8]| bytes[start..start + width].iter().rev().fold(0, |n, &b| n << 8 | u64::from(b));
            let (left, right) = (number(&mine), number(&others));
            if left != right {
                lines.push(format!("{name}: {left} and {right}"));
            }
            at = start + width;
        }
        lines
    }

    fn bytes(&self) -> Vec<u8> {
        self.words.iter().flat_map(|word| word.to_le_bytes()).collect()
    }

    /// The field that a byte belongs to: its name, first byte and width.
    fn field(&self, at: usize) -> (String, usize, usize) {
        let table_end = self.table + self.records * size_of::<Block>();
        let entries_end = self.entries + self.labels * size_of::<u32>();
        if (self.head..self.head + size_of::<Head>()).contains(&at) {
            let within = at - self.head;
            if within < 8 {
                return (
                    format!("head {}", ["NB", "NE", "T", "reading place"][within / 2]),
                    self.head + within / 2 * 2,
                    2,
                );
            }
            if within < 16 {
                return (format!("head {}", ["P", "K"][within / 4 - 2]), self.head + within / 4 * 4, 4);
            }
            let (desk, field) = ((within - 16) / 8, within % 8);
            let start = at - field;
            return match field {
                0 | 1 => (format!("desk {desk} stage"), start, 2),
                2 | 3 => (format!("desk {desk} place"), start + 2, 2),
                _ => (format!("desk {desk} turn"), start + 4, 4),
            };
        }
        if (self.table..table_end).contains(&at) {
            let within = at - self.table;
            let name = ["round", "written", "claimed", "finished"][within % 8 / 2];
            return (format!("block {} {name}", within / 8), self.table + within / 2 * 2, 2);
        }
        if (self.entries..entries_end).contains(&at) {
            let entry = (at - self.entries) / 4;
            return (format!("entry {entry}"), self.entries + entry * 4, 4);
        }
        let (part, end) = [("head", self.head + size_of::<Head>()), ("table", table_end), ("entries", entries_end)]
            .into_iter()
            .rfind(|&(_, end)| end <= at)
            .unwrap_or(("nothing", 0));
        (format!("guard byte {} behind {part}", at - end), at, 1)
    }
}
