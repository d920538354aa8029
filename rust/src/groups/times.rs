// Made from crates/group_wire/src/times.rt by rust/erase.
//! The times of queries (RFC 2236 section 2.2, RFC 3376 sections 4.1.1 and 4.1.7, RFC 2710 section 3.4, RFC 3810
//! section 5.1.3), and the versions of messages.

use crate::groups::address::Address;
use crate::groups::family::Family;
use crate::groups::membership::Message;
use crate::groups::query::Query;
use crate::groups::records::Records;
use crate::icmp4_wire::igmp::duration_of_code;
use crate::icmp6_wire::icmpv6::Packet;
use crate::wirebase::Duration;

impl<'a, A: Address> Message<A, Query<'a, A>, Records<'a, A>> {
    /// The maximum response time of a query, by its code; None of other messages. A query of version 1 of IGMP has no
    /// code: there it is 10 seconds (RFC 2236 section 4). Codes of IGMP are below 256; of a larger one the lower 8 bits
    /// count, which are what is written.
    pub fn max_resp_time(&self) -> Option<Duration> {
        match self {
            Message::OlderQuery { max_resp_code, .. } => {
                Some(older_time(A::family(), *max_resp_code))
            }
            Message::Query(query) => Some(query_time(A::family(), query.max_resp_code)),
            _ => None,
        }
    }

    /// The version of the protocol: 1, 2 or 3 of IGMP, 1 or 2 of MLD. An older query of IGMP is of version 1 where its
    /// code is 0 (RFC 3376 section 7.1), in the lower 8 bits, which are what is written.
    pub fn version(&self) -> u8 {
        let (older, newest) = match A::family() {
            Family::Igmp => (2, 3),
            Family::Mld => (1, 2),
        };
        match self {
            Message::OldestReport { .. } => 1,
            Message::OlderQuery { max_resp_code, .. } if *max_resp_code % 256 == 0 => 1,
            Message::OlderQuery { .. } | Message::OlderReport { .. } | Message::Leave { .. } => {
                older
            }
            Message::Query(_) | Message::Report { .. } => newest,
        }
    }
}

impl<'a, A: Address> Query<'a, A> {
    /// The querier's interval, in whole seconds: at most 31,744 (RFC 3376 section 4.1.7, RFC 3810 section 5.1.9).
    pub fn interval(&self) -> Duration {
        interval_of_code(self.qqic)
    }
}

// The interval of a code.
fn interval_of_code(code: u8) -> Duration {
    Duration::from_secs(duration_of_code(code).total_millis() / 100)
}

// The time of a query of an older version.
fn older_time(family: Family, code: u16) -> Duration {
    match family {
        Family::Igmp if code % 256 == 0 => Duration::from_secs(10),
        Family::Igmp => Duration::from_millis(100 * (code % 256) as u64),
        Family::Mld => Duration::from_millis(code as u64),
    }
}

// The time of a query of the newest version.
fn query_time(family: Family, code: u16) -> Duration {
    match family {
        Family::Igmp => duration_of_code((code % 256) as u8),
        Family::Mld => {
            let [high, low] = code.to_be_bytes();
            Packet::new_unchecked(&[0, 0, 0, 0, high, low][..]).max_resp_time()
        }
    }
}
