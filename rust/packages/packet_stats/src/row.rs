// Made from crates/packet_stats/src/row.rt by rust/erase.
//! Rows of tables.

use crate::subject::Subject;
use crate::table::Fault;
use crate::times::place_in;
#[allow(unused_imports)]
use rattle_std::prelude::*;
use std::cmp::Ordering;

/// The most times that are kept in a row.
pub const MOST_TIMES: usize = 4_096;

// A subject that a message speaks of, and where the message answers, the nanoseconds from the question on.
pub(crate) struct Mention {
    pub(crate) subject: Subject,
    pub(crate) after: Option<u64>,
}

/// A row: a subject, how many messages speak of it, and of a server the times that its answers took.
pub struct Row {
    pub(crate) subject: Subject,
    pub(crate) count: u64,
    // In ascending order.
    times: Vec<u64>,
    pub(crate) unkept: u64,
}

impl Row {
    // The row of the first message.
    pub(crate) fn begin(mention: Mention) -> Result<Row, Fault> {
        let mut row = Row {
            subject: mention.subject,
            count: 0,
            times: Vec::new(),
            unkept: 0,
        };
        row.count_one(mention.after)?;
        Ok(row)
    }

    // Counts one message more.
    pub(crate) fn count_one(&mut self, after: Option<u64>) -> Result<(), Fault> {
        self.keep(after)?;
        self.count = self.count.saturating_add(1);
        Ok(())
    }

    // Keeps a time, where there is room for it.
    fn keep(&mut self, after: Option<u64>) -> Result<(), Fault> {
        let Some(time) = after else {
            return Ok(());
        };
        if self.times.len() < MOST_TIMES {
            return self.insert(time);
        }
        self.unkept = self.unkept.saturating_add(1);
        Ok(())
    }

    // Keeps a time among the others.
    fn insert(&mut self, time: u64) -> Result<(), Fault> {
        let place = place_in(&self.times, time);
        match self.times.insert(place, time) {
            Ok(()) => Ok(()),
            Err(_) => Err(Fault::Memory),
        }
    }

    // How many times are kept.
    pub(crate) fn times(&self) -> usize {
        self.times.len()
    }

    // The time that this percentage of the kept times are not above, by the nearest rank.
    pub(crate) fn percentile(&self, percent: usize) -> Option<u64> {
        let count = self.times.len();
        if count == 0 {
            return None;
        }
        Some(self.times[(percent * count + 99) / 100 - 1])
    }

    // How many messages there were, where that is the order of a page.
    fn rank(&self) -> u64 {
        self.subject.rank(self.count)
    }

    // The order of rows on a page.
    pub(crate) fn order(&self, other: &Row) -> Ordering {
        let by_count = other.rank().cmp(&self.rank());
        by_count.then_with(|| {
            self.subject
                .place()
                .as_slice()
                .cmp(&other.subject.place().as_slice())
        })
    }
}
