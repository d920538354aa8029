// Made from crates/tests_examples/src/callers/querier.rt by rust/erase.
use crate::testing::same;
use control_wire::groups::{Membership, Message, Query, Sources};
use control_wire::{Ipv4Address, Ipv6Address};
use examples::querier::reception::{Reception, ReceptionKey};
use examples::querier::variables::Variables;
use examples::querier::{Asked, Querier};

// The defaults of RFC 3376 section 8.
const DEFAULTS: Variables = Variables {
    robustness: 2,
    interval_code: 125,
    response_code: 100,
    last_member_code: 10,
};

fn group() -> Ipv4Address {
    Ipv4Address::new(233, 252, 0, 1)
}

fn source() -> Ipv4Address {
    Ipv4Address::new(192, 0, 2, 77)
}

// Reports and a leave of the group by versions 1 and 2 (RFC 2236 section 2).
const OLDEST_REPORT: &[u8] = &[0x12, 0, 4, 2, 233, 252, 0, 1];

const OLDER_REPORT: &[u8] = &[0x16, 0, 0, 2, 233, 252, 0, 1];

const LEAVE: &[u8] = &[0x17, 0, 255, 1, 233, 252, 0, 1];

// Reports of the group by version 3 (RFC 3376 section 4.2.12): CHANGE_TO_EXCLUDE_MODE and CHANGE_TO_INCLUDE_MODE of
// nothing, and ALLOW_NEW_SOURCES, BLOCK_OLD_SOURCES and CHANGE_TO_INCLUDE_MODE of 192.0.2.77.
const EXCLUDES: &[u8] = &[0x22, 0, 240, 0, 0, 0, 0, 1, 4, 0, 0, 0, 233, 252, 0, 1];

const INCLUDES: &[u8] = &[0x22, 0, 241, 0, 0, 0, 0, 1, 3, 0, 0, 0, 233, 252, 0, 1];

const ALLOWS: &[u8] = &[
    0x22, 0, 44, 178, 0, 0, 0, 1, 5, 0, 0, 1, 233, 252, 0, 1, 192, 0, 2, 77,
];

const BLOCKS: &[u8] = &[
    0x22, 0, 43, 178, 0, 0, 0, 1, 6, 0, 0, 1, 233, 252, 0, 1, 192, 0, 2, 77,
];

const INCLUDES_SOURCE: &[u8] = &[
    0x22, 0, 46, 178, 0, 0, 0, 1, 3, 0, 0, 1, 233, 252, 0, 1, 192, 0, 2, 77,
];

// The router 192.0.2.9, which keeps two receptions and has sent its first query.
fn querier() -> Querier<Ipv4Address, 2> {
    let own = Ipv4Address::new(192, 0, 2, 9);
    let mut querier = Querier::new(own, DEFAULTS.times::<Ipv4Address>());
    let _asked = querier.next_query();
    querier
}

fn hear(querier: &mut Querier<Ipv4Address, 2>, octets: &[u8]) {
    if let Ok(message) = Membership::parse_igmp(octets) {
        querier.hear(&Ipv4Address::new(192, 0, 2, 11), &message);
    }
}

fn key(source: Option<Ipv4Address>) -> ReceptionKey<Ipv4Address> {
    ReceptionKey {
        group: group(),
        source,
    }
}

fn reception(source: Option<Ipv4Address>, left: u64) -> Reception<Ipv4Address> {
    Reception {
        group: group(),
        source,
        left,
        oldest: 0,
        queries: 0,
        next: 0,
    }
}

// One that is asked about: it counts for the last member query time, 2 s.
fn asked(source: Option<Ipv4Address>) -> Reception<Ipv4Address> {
    Reception {
        queries: 2,
        ..reception(source, 2_000)
    }
}

// The general queries at start are 31.25 s apart, and then 125 s (RFC 3376 sections 8.2, 8.6 and 8.7).
#[test]
fn all_groups_are_asked_about_in_turn() {
    let mut querier = Querier::<Ipv4Address, 2>::new(source(), DEFAULTS.times::<Ipv4Address>());
    for wait in [0, 31_250, 125_000, 125_000] {
        if wait > 0 {
            querier.pass(wait - 1);
            same(querier.next_query(), None);
            querier.pass(1);
        }
        same(querier.next_query(), Some(Asked::All));
        same(querier.next_query(), None);
    }
}

// The times of RFC 3376 sections 8.4 to 8.10 and of RFC 3810 sections 9.4 to 9.10.
#[test]
fn times_are_those_of_the_defaults() {
    let times = DEFAULTS.times::<Ipv4Address>();
    same(times.membership, 260_000);
    same(times.other_querier, 255_000);
    same(times.startup_interval, 31_250);
    same(times.last_member_interval, 1_000);
    same(times.last_member_time, 2_000);
    let mld = Variables {
        response_code: 10_000,
        last_member_code: 1_000,
        ..DEFAULTS
    };
    same(mld.times::<Ipv6Address>(), times);
}

// Each row: a message, and what hosts want of the group after it and the ones before.
#[test]
fn reports_say_what_hosts_want() {
    let all = reception(None, 260_000);
    let of_source = reception(Some(source()), 260_000);
    let rows: [(&[u8], &[Reception<Ipv4Address>]); 9] = [
        (INCLUDES, &[]),
        (LEAVE, &[]),
        (BLOCKS, &[]),
        (ALLOWS, &[of_source]),
        (BLOCKS, &[asked(Some(source()))]),
        (OLDER_REPORT, &[asked(Some(source())), all]),
        (INCLUDES_SOURCE, &[of_source, asked(None)]),
        (EXCLUDES, &[of_source, all]),
        (LEAVE, &[asked(Some(source())), asked(None)]),
    ];
    let mut querier = querier();
    for (message, wanted) in rows {
        hear(&mut querier, message);
        same(querier.receptions(), wanted);
    }
}

#[test]
fn a_group_is_wanted_for_its_time() {
    let mut querier = querier();
    hear(&mut querier, OLDER_REPORT);
    querier.pass(259_999);
    same(querier.receptions(), &[reception(None, 1)]);
    querier.pass(1);
    same(querier.receptions(), &[]);
}

// It is asked about twice, a second apart, and is there for another (RFC 3376 sections 8.8 to 8.10).
#[test]
fn a_group_that_a_host_leaves_is_asked_about() {
    let mut querier = querier();
    hear(&mut querier, EXCLUDES);
    hear(&mut querier, LEAVE);
    for _ in 0..2 {
        same(querier.next_query(), Some(Asked::Reception(key(None))));
        same(querier.next_query(), None);
        querier.pass(999);
        same(querier.next_query(), None);
        same(querier.receptions().len(), 1);
        querier.pass(1);
    }
    same(querier.receptions().len(), 0);
    hear(&mut querier, ALLOWS);
    hear(&mut querier, BLOCKS);
    let of_source = Some(Asked::Reception(key(Some(source()))));
    same(querier.next_query(), of_source);
    hear(&mut querier, ALLOWS);
    querier.pass(1_000);
    same(querier.next_query(), None);
}

// A host of version 1 leaves without a message, and does not answer a query of its group soon (RFC 3376 section 7.3.2).
#[test]
fn a_host_of_version_1_stays() {
    let mut querier = querier();
    hear(&mut querier, OLDEST_REPORT);
    querier.pass(1_000);
    hear(&mut querier, EXCLUDES);
    hear(&mut querier, LEAVE);
    let stays = Reception {
        oldest: 259_000,
        ..reception(None, 260_000)
    };
    same(querier.receptions(), &[stays]);
    querier.pass(259_000);
    hear(&mut querier, EXCLUDES);
    hear(&mut querier, LEAVE);
    same(querier.receptions(), &[asked(None)]);
}

#[test]
fn a_full_list_keeps_what_it_has() {
    let mut querier = querier();
    hear(&mut querier, EXCLUDES);
    hear(&mut querier, ALLOWS);
    let other = Message::OlderReport {
        group: Ipv4Address::new(233, 252, 0, 2),
    };
    querier.hear(&source(), &other);
    let kept = [reception(None, 260_000), reception(Some(source()), 260_000)];
    same(querier.receptions(), &kept);
}

// The querier asks about the group, or about a source.
fn query_of(sources: Sources<'_, Ipv4Address>, s_flag: bool) -> Membership<'_, Ipv4Address> {
    Message::Query(Query {
        max_resp_code: 10,
        group: group(),
        s_flag,
        qrv: 2,
        qqic: 125,
        sources,
    })
}

// The one with the lower address asks; the other one waits no longer for what it asks about, but asks nothing (RFC 3376
// sections 6.6.1 and 6.6.2).
#[test]
fn another_router_asks() {
    let lower = Ipv4Address::new(192, 0, 2, 8);
    let higher = Ipv4Address::new(192, 0, 2, 10);
    let octets = source().octets();
    let of_source = query_of(Sources::new(&octets), false);
    let mut querier = querier();
    hear(&mut querier, ALLOWS);
    querier.hear(&higher, &of_source);
    same(querier.is_querier(), true);
    querier.hear(&lower, &query_of(Sources::new(&octets), true));
    same(querier.is_querier(), false);
    same(querier.receptions(), &[reception(Some(source()), 260_000)]);
    querier.hear(&lower, &of_source);
    same(querier.receptions(), &[reception(Some(source()), 2_000)]);
    hear(&mut querier, EXCLUDES);
    hear(&mut querier, LEAVE);
    let wanted = [reception(Some(source()), 2_000), reception(None, 260_000)];
    same(querier.receptions(), &wanted);
    querier.hear(&lower, &query_of(Sources::none(), false));
    let wanted = [reception(Some(source()), 2_000), reception(None, 2_000)];
    same(querier.receptions(), &wanted);
    querier.pass(254_999);
    same(querier.next_query(), None);
    querier.pass(1);
    same(querier.next_query(), Some(Asked::All));
    querier.pass(124_999);
    same(querier.next_query(), None);
}

// Ends the test unless the query has these octets (RFC 2236 section 2, RFC 3376 section 4.1).
fn states(query: &Membership<'_, Ipv4Address>, wanted: &[u8]) {
    let mut octets = [0xa5; 64];
    let len = query.buffer_len();
    if len <= 64 {
        query.emit_igmp(&mut octets[..len]);
    }
    same(octets.get(..len), Some(wanted));
}

#[test]
fn queries_state_the_variables() {
    let mut room = [0; 4];
    let all = Asked::All;
    let group = Asked::Reception(key(None));
    let of_source = Asked::Reception(key(Some(source())));
    let wanted = [0x11, 100, 236, 30, 0, 0, 0, 0, 2, 125, 0, 0];
    states(&DEFAULTS.query(&all, &mut room), &wanted);
    let wanted = [0x11, 10, 2, 123, 233, 252, 0, 1, 2, 125, 0, 0];
    states(&DEFAULTS.query(&group, &mut room), &wanted);
    let wanted = [
        0x11, 10, 64, 44, 233, 252, 0, 1, 2, 125, 0, 1, 192, 0, 2, 77,
    ];
    states(&DEFAULTS.query(&of_source, &mut room), &wanted);
    let wanted = [0x11, 100, 238, 155, 0, 0, 0, 0];
    states(&DEFAULTS.older_query(&all), &wanted);
    let wanted = [0x11, 10, 4, 248, 233, 252, 0, 1];
    states(&DEFAULTS.older_query(&of_source), &wanted);
}

#[test]
fn a_router_of_ipv6_asks() {
    let own = Ipv6Address::new(0xfe80, 0, 0, 0, 0, 0, 0, 9);
    let lower = Ipv6Address::new(0xfe80, 0, 0, 0, 0, 0, 0, 8);
    let group = Ipv6Address::new(0xff15, 0, 0, 0, 0, 0, 0, 1);
    let mut querier = Querier::<Ipv6Address, 1>::new(own, DEFAULTS.times::<Ipv6Address>());
    same(querier.next_query(), Some(Asked::All));
    querier.hear(&lower, &Message::OlderReport { group });
    querier.hear(&lower, &Message::Leave { group });
    let key = ReceptionKey {
        group,
        source: None,
    };
    same(querier.next_query(), Some(Asked::Reception(key)));
    let query = DEFAULTS.older_query(&Asked::Reception(key));
    same(query.version(), 1);
    querier.hear(&lower, &query);
    same(querier.is_querier(), false);
}
