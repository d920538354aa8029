// Made from crates/group_wire/src/display.rt by rust/erase.
//! Messages about groups printed, each in one line.

use crate::groups::address::Address;
use crate::groups::family::Family;
use crate::groups::membership::{Membership, Message};
use crate::groups::query::Query;
use crate::groups::record::Record;
use crate::groups::records::{Records, RecordsIterator};
use crate::groups::refusal::Refusal;
use crate::groups::sources::{Sources, SourcesIterator};
use crate::groups::writer::Full;
use crate::wirebase::text::HexOrDash;
use core::fmt;

/// The name of the protocol.
impl fmt::Display for Family {
    fn fmt(&self, f: &mut fmt::Formatter<'_>) -> fmt::Result {
        let name = match self {
            Family::Igmp => "IGMP",
            Family::Mld => "MLD",
        };
        f.write_str(name)
    }
}

/// The reason as a phrase.
impl fmt::Display for Refusal {
    fn fmt(&self, f: &mut fmt::Formatter<'_>) -> fmt::Result {
        match self {
            Refusal::Short => f.write_str("fewer than 8 bytes"),
            Refusal::Checksum => f.write_str("wrong checksum"),
            Refusal::UnknownType(number) => write!(f, "type {number} is not read"),
            Refusal::Length => f.write_str("a length that no message of this type has"),
            Refusal::Cut => f.write_str("more sources or records counted than there are"),
        }
    }
}

/// The reason as a phrase.
impl fmt::Display for Full {
    fn fmt(&self, f: &mut fmt::Formatter<'_>) -> fmt::Result {
        f.write_str("no room for the record")
    }
}

/// The sources with commas between them, and a dash in the place of none.
impl<A: Address> fmt::Display for Sources<'_, A> {
    fn fmt(&self, f: &mut fmt::Formatter<'_>) -> fmt::Result {
        let mut sources = self.iter();
        match sources.next() {
            Some(first) => first.show(f)?,
            None => return f.write_str("-"),
        }
        fmt_more_sources(f, sources)
    }
}

// Prints each source after a comma.
fn fmt_more_sources<A: Address>(
    f: &mut fmt::Formatter<'_>,
    sources: SourcesIterator<'_, A>,
) -> fmt::Result {
    for source in sources {
        fmt_next_source(f, source)?;
    }
    Ok(())
}

// Prints a source after a comma.
fn fmt_next_source<A: Address>(f: &mut fmt::Formatter<'_>, source: A) -> fmt::Result {
    f.write_str(",")?;
    source.show(f)
}

/// The record with its fields, as `MODE_IS_EXCLUDE group=224.0.0.251 sources=- auxiliary=-`.
impl<A: Address> fmt::Display for Record<'_, A> {
    fn fmt(&self, f: &mut fmt::Formatter<'_>) -> fmt::Result {
        let record_type = self.record_type;
        write!(f, "{record_type} group=")?;
        self.group.show(f)?;
        let sources = self.sources;
        let auxiliary = HexOrDash(self.auxiliary);
        write!(f, " sources={sources} auxiliary={auxiliary}")
    }
}

// Prints each record in parentheses after a space.
fn fmt_records<A: Address>(
    f: &mut fmt::Formatter<'_>,
    records: RecordsIterator<'_, A>,
) -> fmt::Result {
    for record in records {
        write!(f, " ({record})")?;
    }
    Ok(())
}

/// The message with its protocol, its version and its fields, as `IGMPv2 leave group=224.0.0.251`.
impl<'a, A: Address> fmt::Display for Message<A, Query<'a, A>, Records<'a, A>> {
    fn fmt(&self, f: &mut fmt::Formatter<'_>) -> fmt::Result {
        let family = A::family();
        let version = self.version();
        write!(f, "{family}v{version}")?;
        fmt_content(f, self)
    }
}

// Prints what the message is, and its fields.
fn fmt_content<A: Address>(f: &mut fmt::Formatter<'_>, message: &Membership<'_, A>) -> fmt::Result {
    match message {
        Message::OlderQuery {
            max_resp_code,
            group,
        } => {
            write!(f, " query max_resp_code={max_resp_code} group=")?;
            group.show(f)
        }
        Message::Query(query) => fmt_query(f, query),
        Message::OldestReport { group } | Message::OlderReport { group } => {
            f.write_str(" report group=")?;
            group.show(f)
        }
        Message::Leave { group } => {
            f.write_str(" leave group=")?;
            group.show(f)
        }
        Message::Report { records } => {
            let count = records.len();
            write!(f, " report records={count}")?;
            fmt_records(f, records.iter())
        }
    }
}

// Prints the fields of a query.
fn fmt_query<A: Address>(f: &mut fmt::Formatter<'_>, query: &Query<'_, A>) -> fmt::Result {
    let Query {
        max_resp_code,
        group,
        s_flag,
        qrv,
        qqic,
        sources,
    } = *query;
    write!(f, " query max_resp_code={max_resp_code} group=")?;
    group.show(f)?;
    write!(
        f,
        " s_flag={s_flag} qrv={qrv} qqic={qqic} sources={sources}"
    )
}
