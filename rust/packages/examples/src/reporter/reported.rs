// Made from crates/examples/src/reporter/reported.rt by rust/erase.
//! What a host keeps of a group that it reports, and of the sources of it that queries ask about.

use crate::querier::reception::RouterAddress;
use crate::timed_list::Entry;
use arrayvec::ArrayVec;
use control_wire::Duration;

// How often a change is reported (RFC 3376 section 8.1, RFC 3810 section 9.1).
const ROBUSTNESS: u8 = 2;

/// A group that a host reports. Times are in milliseconds.
#[derive(Debug, PartialEq, Eq, Clone, Copy)]
pub struct Reported<A> {
    /// The group.
    pub group: A,
    /// Whether the host is a member of it; one that it has left is kept until time passes after its last report.
    pub is_member: bool,
    /// How many reports of this are left.
    pub changes: u8,
    /// The time until the next of them.
    pub next: u32,
    /// The time until a query is answered. None where none is to be.
    pub answer: Option<u32>,
}

/// A source of a group that a query asked about, and that is still to be answered.
#[derive(Debug, PartialEq, Eq, Clone, Copy)]
pub struct AskedSource<A> {
    /// The group.
    pub group: A,
    /// The source.
    pub source: A,
}

/// What tells such sources apart.
#[derive(Debug, PartialEq, Eq, Clone, Copy)]
pub struct AskedKey<A> {
    /// The group.
    pub group: A,
    /// The source. None for all sources.
    pub source: Option<A>,
}

impl<A: RouterAddress> Default for Reported<A> {
    fn default() -> Reported<A> {
        changed(&A::unspecified(), false)
    }
}

impl<A: RouterAddress> Entry for Reported<A> {
    type Key = A;

    fn is_of(&self, group: &A) -> bool {
        self.group == *group
    }

    fn after(&self, passed: u32) -> Option<Reported<A>> {
        if !self.is_member && self.changes == 0 {
            return None;
        }
        Some(Reported {
            next: self.next.saturating_sub(passed),
            answer: time_left(self.answer, passed),
            ..*self
        })
    }
}

impl<A: RouterAddress> Default for AskedSource<A> {
    fn default() -> AskedSource<A> {
        AskedSource {
            group: A::unspecified(),
            source: A::unspecified(),
        }
    }
}

impl<A: RouterAddress> Entry for AskedSource<A> {
    type Key = AskedKey<A>;

    fn is_of(&self, key: &AskedKey<A>) -> bool {
        self.group == key.group && names(&key.source, &self.source)
    }

    fn after(&self, _passed: u32) -> Option<AskedSource<A>> {
        Some(*self)
    }
}

impl<A: Copy> AskedKey<A> {
    // A source of a group.
    pub(crate) fn of_source(group: &A, source: A) -> AskedKey<A> {
        AskedKey {
            group: *group,
            source: Some(source),
        }
    }

    // All sources of a group.
    pub(crate) fn of_group(group: &A) -> AskedKey<A> {
        AskedKey {
            group: *group,
            source: None,
        }
    }
}

// What is left of a time.
fn time_left(time: Option<u32>, passed: u32) -> Option<u32> {
    match time {
        Some(time) => Some(time.saturating_sub(passed)),
        None => None,
    }
}

// Whether a source is meant, or all sources.
fn names<A: PartialEq>(named: &Option<A>, source: &A) -> bool {
    match named {
        Some(named) => source == named,
        None => true,
    }
}

// A group whose change is to be reported.
fn changed<A: Copy>(group: &A, is_member: bool) -> Reported<A> {
    Reported {
        group: *group,
        is_member,
        changes: ROBUSTNESS,
        next: 0,
        answer: None,
    }
}

// A group that the host joins, with what it reported of it so far.
pub(crate) fn joined<A: Copy>(group: &A, before: Option<Reported<A>>) -> Reported<A> {
    match before {
        Some(entry) if entry.is_member => entry,
        _ => changed(group, true),
    }
}

// A group that the host leaves.
pub(crate) fn left<A: Copy>(entry: &Reported<A>) -> Reported<A> {
    if entry.is_member {
        changed(&entry.group, false)
    } else {
        *entry
    }
}

// A group that another host reports.
pub(crate) fn silenced<A: Copy>(entry: &Reported<A>) -> Reported<A> {
    Reported {
        answer: None,
        ..*entry
    }
}

impl<A: RouterAddress> Reported<A> {
    // Whether a query of this group, or of all, asks about it.
    fn is_meant(&self, meant: &Option<A>) -> bool {
        match meant {
            Some(group) => self.is_member && self.group == *group,
            None => self.is_member,
        }
    }

    // The group where a query of this group, or of all, is to be answered in this time.
    pub(crate) fn answered(&self, meant: &Option<A>, delay: u32) -> Reported<A> {
        if !self.is_meant(meant) {
            return *self;
        }
        Reported {
            answer: Some(earliest(self.answer, delay)),
            ..*self
        }
    }
}

// A query of this group, or of all, is to be answered in this time.
pub(crate) fn answer<A: RouterAddress, const N: usize>(
    groups: &mut ArrayVec<Reported<A>, N>,
    meant: &Option<A>,
    delay: u32,
) {
    let mut later = ArrayVec::new();
    for entry in groups.as_slice() {
        later.push(entry.answered(meant, delay));
    }
    *groups = later;
}

// The earlier of two times.
fn earliest(time: Option<u32>, delay: u32) -> u32 {
    match time {
        Some(time) => time.min(delay),
        None => delay,
    }
}

// Whether its change is to be reported now.
pub(crate) fn is_change_due<A: Copy>(entry: &Reported<A>) -> bool {
    entry.changes > 0 && entry.next == 0
}

// Whether a query is to be answered now.
fn is_over(answer: Option<u32>) -> bool {
    match answer {
        Some(time) => time == 0,
        None => false,
    }
}

// The first of these that is to be reported now.
pub(crate) fn next_due<A: Copy>(entries: &[Reported<A>]) -> Option<Reported<A>> {
    for entry in entries {
        if is_change_due(entry) || is_over(entry.answer) {
            return Some(*entry);
        }
    }
    None
}

// The group that was reported, and whose change may be so again in this time.
pub(crate) fn after_report<A: Copy>(entry: &Reported<A>, again: u32) -> Reported<A> {
    if is_change_due(entry) {
        Reported {
            changes: entry.changes.saturating_sub(1),
            next: again,
            ..*entry
        }
    } else {
        Reported {
            answer: None,
            ..*entry
        }
    }
}

// A time in milliseconds, up to the most, by chance.
pub(crate) fn by_chance(chance: u32, most: Duration) -> u32 {
    (chance as u64 % (most.total_millis() + 1)) as u32
}
