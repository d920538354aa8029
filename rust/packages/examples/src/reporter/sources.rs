// Made from crates/examples/src/reporter/sources.rt by rust/erase.
//! The sources of groups that queries ask about, until they are answered.

use super::MOST_SOURCES;
use super::reported::{AskedKey, AskedSource, Reported, is_change_due};
use crate::querier::reception::RouterAddress;
use crate::timed_list::{entries_of, look_up, remove, renew};
use arrayvec::ArrayVec;
use control_wire::groups::Sources;

type Asked<A> = ArrayVec<AskedSource<A>, MOST_SOURCES>;

// Takes what a query of a group asks about, of which this is known.
pub(crate) fn ask<A: RouterAddress>(
    asked: &mut Asked<A>,
    group: &A,
    sources: Sources<'_, A>,
    entry: Option<Reported<A>>,
) {
    if sources.is_empty() {
        remove(asked, &AskedKey::of_group(group));
    } else if adds(asked, group, entry) {
        add_sources(asked, group, sources);
    }
}

// Whether the sources of a query of the group are to be answered, and not with the whole group.
fn adds<A: RouterAddress>(asked: &Asked<A>, group: &A, entry: Option<Reported<A>>) -> bool {
    match entry {
        Some(entry) => entry.is_member && !is_whole_due(asked, group, entry.answer),
        None => false,
    }
}

// Whether the whole group is to be reported.
fn is_whole_due<A: RouterAddress>(asked: &Asked<A>, group: &A, answer: Option<u32>) -> bool {
    answer.is_some() && !is_asked(asked, group)
}

// Whether sources of the group are asked about.
fn is_asked<A: RouterAddress>(asked: &Asked<A>, group: &A) -> bool {
    look_up(asked.as_slice(), &AskedKey::of_group(group)).is_some()
}

// Keeps these sources, or where there is no room none of the group.
fn add_sources<A: RouterAddress>(asked: &mut Asked<A>, group: &A, sources: Sources<'_, A>) {
    if sources.len() > MOST_SOURCES - asked.len() {
        remove(asked, &AskedKey::of_group(group));
    } else {
        keep_sources(asked, group, sources);
    }
}

// Keeps these sources.
fn keep_sources<A: RouterAddress>(asked: &mut Asked<A>, group: &A, sources: Sources<'_, A>) {
    for source in sources.iter() {
        keep_source(asked, group, source);
    }
}

// Keeps a source.
fn keep_source<A: RouterAddress>(asked: &mut Asked<A>, group: &A, source: A) {
    let key = AskedKey::of_source(group, source);
    let entry = AskedSource {
        group: *group,
        source,
    };
    let _kept = renew(asked, &key, entry);
}

// The sources that an answer is about, which are asked about no longer; a change is about none.
pub(crate) fn take_asked<A: RouterAddress>(asked: &mut Asked<A>, entry: &Reported<A>) -> Asked<A> {
    if is_change_due(entry) {
        return ArrayVec::new();
    }
    let key = AskedKey::of_group(&entry.group);
    let about = entries_of(asked, &key);
    remove(asked, &key);
    about
}
