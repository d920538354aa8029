// Made from crates/dump_captures/src/session.rt by rust/erase.
//! What is kept from message to message.

use crate::Fault;
use crate::arrival::Arrival;
use crate::content::Content;
use crate::kind::Reason;
use crate::options::Options;
use crate::sight::Headers;
use crate::time::Clock;
use control_wire::frames::Addresses;
use message_fields::Message;
use packet_pairs::{Answered, Pairs, exchange_of};
use packet_stats::Stats;

/// What is kept from message to message: the clock, the questions that wait for an answer, and what messages said.
pub struct Session {
    /// The clock.
    pub clock: Clock,
    /// The questions.
    pub pairs: Pairs,
    /// What messages said.
    pub stats: Stats,
}

impl Session {
    /// Before the first message.
    pub(crate) fn new() -> Session {
        Session {
            clock: Clock::new(),
            pairs: Pairs::new(),
            stats: Stats::new(),
        }
    }

    /// Sees a packet that is refused or read in part for this reason, if it is, and returns the question that it
    /// answers, where it answers one.
    #[inline]
    pub(crate) fn see(
        &mut self,
        options: &Options,
        arrival: &Arrival<'_>,
        headers: &Headers<'_>,
        why: Option<Reason>,
    ) -> Result<Option<Answered>, Fault> {
        if !is_looked_at(options, why) {
            return Ok(None);
        }
        match (message_in(&headers.content), &headers.addresses) {
            (Some(message), Some(addresses)) => {
                self.see_message(options, arrival, message, addresses)
            }
            _ => Ok(None),
        }
    }

    // Sees a message between these addresses.
    #[inline(never)]
    fn see_message(
        &mut self,
        options: &Options,
        arrival: &Arrival<'_>,
        message: &Message<'_>,
        addresses: &Addresses,
    ) -> Result<Option<Answered>, Fault> {
        let answer = self.pair(arrival, message, addresses)?;
        self.count(options.stats, message, addresses, after_in(answer))?;
        Ok(answer)
    }

    // Looks for the question that a message answers, and keeps the one that it asks.
    fn pair(
        &mut self,
        arrival: &Arrival<'_>,
        message: &Message<'_>,
        addresses: &Addresses,
    ) -> Result<Option<Answered>, Fault> {
        let Some(exchange) = exchange_of(message, addresses) else {
            return Ok(None);
        };
        let time = arrival.nanoseconds();
        match self.pairs.see(arrival.record.number, time, exchange) {
            Ok(answer) => Ok(answer),
            Err(_) => Err(Fault::Memory),
        }
    }

    // Counts what a message says, where that is asked for.
    fn count(
        &mut self,
        is_counted: bool,
        message: &Message<'_>,
        addresses: &Addresses,
        after: Option<u64>,
    ) -> Result<(), Fault> {
        if !is_counted {
            return Ok(());
        }
        match self.stats.count(message, addresses, after) {
            Ok(()) => Ok(()),
            Err(_) => Err(Fault::Memory),
        }
    }
}

// The time from a question to its answer, where it is known.
fn after_in(answer: Option<Answered>) -> Option<u64> {
    match answer {
        Some(answered) => answered.after,
        None => None,
    }
}

// The message of a packet, whole or in part, where it has one.
fn message_in<'c, 'a>(content: &'c Content<'a>) -> Option<&'c Message<'a>> {
    match content {
        Content::Whole(message) | Content::Cut(message, _, _) => Some(message),
        Content::Refused(_, _, _) => None,
    }
}

// Whether messages are looked at, and a packet is not refused for a checksum.
fn is_looked_at(options: &Options, why: Option<Reason>) -> bool {
    (options.pairs || options.stats) && !(options.is_strict && is_checksum(why))
}

fn is_checksum(why: Option<Reason>) -> bool {
    matches!(why, Some(Reason::Checksum))
}
