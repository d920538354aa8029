// Made from crates/packet_stats/src/table.rt by rust/erase.
//! Tables of rows.

use crate::row::{Mention, Row};
use crate::subject::Subject;
use crate::sum::sum_again;
#[allow(unused_imports)]
use rattle_std::prelude::*;

/// The most rows of a table, but of that of servers.
pub const MOST_ROWS: usize = 1_024;

/// The most servers, each of which has up to `MOST_TIMES` times.
pub const MOST_SERVERS: usize = 256;

/// What keeps a message from being counted.
#[derive(Debug, PartialEq, Eq, Clone, Copy)]
pub enum Fault {
    /// There was no memory.
    Memory,
}

// A table.
pub(crate) struct Table {
    pub(crate) rows: Vec<Row>,
    // The sums of their subjects, in the same order: a subject is compared only where the sum is the same.
    sums: Vec<u32>,
    pub(crate) overlooked: u64,
}

impl Table {
    // Nothing was counted yet.
    pub(crate) fn new() -> Table {
        Table {
            rows: Vec::new(),
            sums: Vec::new(),
            overlooked: 0,
        }
    }

    // Counts a message, where there is a row for it or room for one, of which there are so many at most.
    pub(crate) fn count(&mut self, most: usize, mention: Mention) -> Result<(), Fault> {
        match self.find(&mention.subject) {
            Some(place) => self.rows[place].count_one(mention.after),
            None => self.begin(most, mention),
        }
    }

    // The place of the row of this subject. In a table that is full there is most often none, which `contains` says
    // several times faster than the loop.
    fn find(&self, subject: &Subject) -> Option<usize> {
        let sum = subject.sum();
        if !self.sums.contains(&sum) {
            return None;
        }
        for (place, other) in self.sums.iter().enumerate() {
            if *other == sum && self.rows[place].subject.is(subject) {
                return Some(place);
            }
        }
        None
    }

    // Counts the first message of its subject.
    fn begin(&mut self, most: usize, mention: Mention) -> Result<(), Fault> {
        if self.rows.len() < most {
            return self.append(Row::begin(mention)?);
        }
        self.overlooked = self.overlooked.saturating_add(1);
        Ok(())
    }

    // Keeps a row behind the others.
    fn append(&mut self, row: Row) -> Result<(), Fault> {
        let sum = row.subject.sum();
        if self.sums.try_reserve(1).is_err() {
            return Err(Fault::Memory);
        }
        if self.rows.push(row).is_err() {
            return Err(Fault::Memory);
        }
        let _pushed = self.sums.push(sum);
        Ok(())
    }

    // Puts the rows into the order of a page.
    pub(crate) fn sort(&mut self) {
        self.rows.sort_unstable_by(|row, other| row.order(other));
        sum_again(&self.rows, &mut self.sums);
    }
}
