// Made from crates/tests_examples/src/callers/addresses.rt by rust/erase.
use crate::testing::same;
use control_wire::Ipv6Address;
use control_wire::neighbors::Prefix;
use examples::addresses::{Addresses, MOST_ADDRESSES, OwnAddress, State};
use examples::router_list::entries::Lifetime;

fn link_local() -> Ipv6Address {
    Ipv6Address::new(0xfe80, 0, 0, 0, 0, 0xff, 0xfe00, 2)
}

// The address of 2001:db8:1::/64 with the same interface identifier.
fn global() -> Ipv6Address {
    Ipv6Address::new(0x2001, 0xdb8, 1, 0, 0, 0xff, 0xfe00, 2)
}

fn prefix(valid_lifetime: u32, preferred_lifetime: u32) -> Prefix {
    Prefix {
        prefix_len: 64,
        on_link: false,
        autonomous: true,
        router_address: false,
        valid_lifetime,
        preferred_lifetime,
        prefix: Ipv6Address::new(0x2001, 0xdb8, 1, 0, 0, 0, 0, 0),
    }
}

// Addresses of a host that formed one of a prefix with these lifetimes, and took it.
fn formed(valid: u32, preferred: u32) -> Addresses {
    let mut addresses = Addresses::new();
    addresses.learn_prefix(&prefix(valid, preferred), &link_local());
    take(&mut addresses);
    addresses
}

// Takes all addresses.
fn take(addresses: &mut Addresses) {
    for _step in 0..2 * MOST_ADDRESSES {
        let _next = addresses.next_step();
        addresses.wait(1_000);
    }
}

// RFC 4862 section 5.4.
#[test]
fn an_address_that_nobody_has_is_assigned_after_a_second() {
    let mut addresses = Addresses::new();
    addresses.add(&link_local(), Lifetime::Forever, Lifetime::Forever);
    same(addresses.source(&link_local()), None);
    let tentative = OwnAddress {
        address: link_local(),
        state: State::Tentative,
        left: 1_000,
        valid: Lifetime::Forever,
        preferred: Lifetime::Forever,
    };
    same(addresses.next_step(), Some(tentative));
    addresses.wait(999);
    same(addresses.next_step(), None);
    addresses.wait(1);
    let assigned = OwnAddress {
        state: State::Assigned,
        left: 0,
        ..tentative
    };
    same(addresses.next_step(), Some(assigned));
    same(addresses.next_step(), None);
    same(addresses.entries(), [assigned].as_slice());
    same(addresses.refuse(&link_local()), false);
    same(addresses.source(&global()), Some(link_local()));
}

#[test]
fn an_address_that_another_has_is_a_duplicate() {
    let mut addresses = Addresses::new();
    addresses.add(&link_local(), Lifetime::Forever, Lifetime::Forever);
    let _tentative = addresses.next_step();
    same(addresses.refuse(&global()), false);
    same(addresses.refuse(&link_local()), true);
    same(addresses.refuse(&link_local()), false);
    addresses.add(&link_local(), Lifetime::Forever, Lifetime::Forever);
    addresses.wait(1_000);
    same(addresses.next_step(), None);
    same(addresses.source(&link_local()), None);
}

// RFC 4862 section 5.5.3.
#[test]
fn addresses_are_formed_of_prefixes() {
    let addresses = formed(7_200, 3_600);
    let Some(entry) = addresses.look_up(&global()) else {
        panic!("no address");
    };
    same(entry.valid, Lifetime::Seconds(7_200));
    same(entry.preferred, Lifetime::Seconds(3_600));
    let rows = [
        Prefix {
            autonomous: false,
            ..prefix(7_200, 3_600)
        },
        Prefix {
            prefix_len: 65,
            ..prefix(7_200, 3_600)
        },
        Prefix {
            prefix: Ipv6Address::new(0xfe80, 0, 0, 0, 0, 0, 0, 0),
            ..prefix(7_200, 3_600)
        },
        prefix(3_599, 3_600),
        prefix(0, 0),
    ];
    for told in rows {
        let mut addresses = Addresses::new();
        addresses.learn_prefix(&told, &link_local());
        same(addresses.entries().is_empty(), true);
    }
}

// Each row: the valid lifetime that is left, the one that is told, and the one that is left then (RFC 4862 section
// 5.5.3(e)).
#[test]
fn a_valid_lifetime_is_not_shortened_to_less_than_two_hours() {
    let rows = [
        (100, 7_201, Lifetime::Seconds(7_201)),
        (9_000, 7_201, Lifetime::Seconds(7_201)),
        (100, 200, Lifetime::Seconds(200)),
        (7_200, 100, Lifetime::Seconds(7_200)),
        (7_201, 100, Lifetime::Seconds(7_200)),
        (100, 0, Lifetime::Seconds(100)),
        (0xffffffff, 0, Lifetime::Seconds(7_200)),
        (100, 0xffffffff, Lifetime::Forever),
    ];
    for (left, told, then) in rows {
        let mut addresses = formed(left, 0);
        addresses.learn_prefix(&prefix(told, 0), &link_local());
        let Some(entry) = addresses.look_up(&global()) else {
            panic!("no address");
        };
        same(entry.valid, then);
        same(entry.state, State::Assigned);
    }
}

// RFC 6724 section 5.
#[test]
fn an_address_of_the_same_scope_is_the_source() {
    let mut addresses = formed(7_200, 3_600);
    addresses.add(&link_local(), Lifetime::Forever, Lifetime::Forever);
    take(&mut addresses);
    same(addresses.source(&link_local()), Some(link_local()));
    same(addresses.source(&global()), Some(global()));
    addresses.pass(3_600);
    same(addresses.source(&global()), Some(global()));
    let other = Ipv6Address::new(0x2001, 0xdb8, 2, 0, 0, 0, 0, 1);
    addresses.add(&other, Lifetime::Forever, Lifetime::Forever);
    take(&mut addresses);
    same(addresses.source(&global()), Some(other));
    addresses.pass(3_600);
    same(addresses.look_up(&global()), None);
}
