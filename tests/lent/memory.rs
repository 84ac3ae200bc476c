//! The memory lent for reading a plan.

use reference::gen::Random;
use reference::records::Record;
use reference::table::{Head, Table};

use super::answers::Ruling;
use super::delivered::rolsipay_read;

/// The most records that are there, of a row that is longer still: no call has a
/// use for more than 512.
pub const MOST_THERE: usize = 1_000;

/// Records behind the row that belong to nobody.
const GUARD: usize = 2;

/// A row that says to have so many records, and a head; more lies behind each.
#[derive(Clone)]
pub struct Memory {
    records: usize,
    row: Vec<Record>,
    head: [Head; 2],
}

fn any_numbers<const COUNT: usize>(random: &mut Random) -> [u64; COUNT] {
    std::array::from_fn(|_| random.next())
}

impl Memory {
    /// Full of random numbers.
    pub fn new(random: &mut Random, records: usize) -> Memory {
        let there = records.min(MOST_THERE) + GUARD;
        Memory {
            records,
            row: (0..there).map(|_| any_numbers(random)).collect(),
            head: [any_numbers(random), any_numbers(random)],
        }
    }

    /// The table that lies here, with all records behind it.
    pub fn table(&self) -> Table {
        Table {
            row: self.row[..self.row.len() - GUARD].to_vec(),
            head: self.head[0],
        }
    }

    /// Writes what an accepted plan leaves here.
    pub fn write(&mut self, table: &Table) {
        self.row[..table.row.len()].copy_from_slice(&table.row);
        self.head[0] = table.head;
    }

    pub fn read(&mut self, text: &[u8]) -> Ruling {
        let (row, head) = (self.row.as_mut_ptr(), self.head.as_mut_ptr());
        // SAFETY: text, row and head are live and do not overlap; there are as many
        // records as are ever used.
        unsafe { rolsipay_read(text.as_ptr(), text.len(), row, self.records, head) }
    }

    /// The first record or head that is not as in another memory, in words.
    pub fn difference(&self, wanted: &Memory) -> Option<String> {
        fn parted<T: PartialEq + std::fmt::Debug>(
            name: &str,
            found: &[T],
            wanted: &[T],
        ) -> Option<String> {
            let at = (0..wanted.len()).find(|&at| found[at] != wanted[at])?;
            let (found, wanted) = (&found[at], &wanted[at]);
            Some(format!("{name} {at}: found {found:?}, wanted {wanted:?}"))
        }
        let row = parted("record", &self.row, &wanted.row);
        row.or_else(|| parted("head", &self.head, &wanted.head))
    }
}
