// Made from crates/tests_examples/src/callers/lease.rt by rust/erase.

use crate::testing::same;
use control_wire::{EthernetAddress, Ipv4Address};
use examples::lease::{Answer, Client, Lease, Message, read_answer, write};

// The header of an answer to the client 00:0b:82:01:fc:42 in exchange 0x00003d1d, with the address 192.168.0.10.
const HEADER: [u8; 34] = [
    0x02, 0x01, 0x06, 0x00, 0x00, 0x00, 0x3d, 0x1d, 0x00, 0x00, 0x00, 0x00, 0x00, 0x00, 0x00, 0x00,
    0xc0, 0xa8, 0x00, 0x0a, 0xc0, 0xa8, 0x00, 0x01, 0x00, 0x00, 0x00, 0x00, 0x00, 0x0b, 0x82, 0x01,
    0xfc, 0x42,
];

// The options of an offer: mask, renewal and rebinding times, lease, server, DNS servers, router.
const OPTIONS: [u8; 58] = [
    0x63, 0x82, 0x53, 0x63, 0x35, 0x01, 0x02, 0x01, 0x04, 0xff, 0xff, 0xff, 0x00, 0x3a, 0x04, 0x00,
    0x00, 0x07, 0x08, 0x3b, 0x04, 0x00, 0x00, 0x0c, 0x4e, 0x33, 0x04, 0x00, 0x00, 0x0e, 0x10, 0x36,
    0x04, 0xc0, 0xa8, 0x00, 0x01, 0x06, 0x08, 0x08, 0x08, 0x08, 0x08, 0x01, 0x01, 0x01, 0x01, 0x03,
    0x04, 0xc0, 0xa8, 0x00, 0xfe, 0xff, 0x00, 0x00, 0x00, 0x00,
];

const CLIENT: [u8; 6] = [0x00, 0x0b, 0x82, 0x01, 0xfc, 0x42];

fn offer() -> [u8; 294] {
    let mut octets = [0; 294];
    octets[..34].copy_from_slice(&HEADER);
    octets[236..].copy_from_slice(&OPTIONS);
    octets
}

// An answer of another type, and one that gives no address.
fn of_type(kind: u8) -> [u8; 294] {
    let mut octets = offer();
    octets[242] = kind;
    octets
}

fn without_address(kind: u8) -> [u8; 294] {
    let mut octets = of_type(kind);
    octets[16..20].fill(0);
    octets
}

fn server() -> Ipv4Address {
    Ipv4Address::new(192, 168, 0, 1)
}

fn address() -> Ipv4Address {
    Ipv4Address::new(192, 168, 0, 10)
}

// The lease of an offer, or of an acknowledgement.
fn lease_in(octets: &[u8]) -> Option<Lease> {
    match read_answer(octets, 0x3d1d, EthernetAddress::from_bytes(&CLIENT)) {
        Some(Answer::Offer(lease)) => Some(lease),
        Some(Answer::Ack(lease)) => Some(lease),
        _ => None,
    }
}

// What kind of answer the octets are to this client in this exchange.
fn kind_of(octets: &[u8], transaction_id: u32, client: &[u8; 6]) -> &'static str {
    match read_answer(octets, transaction_id, EthernetAddress::from_bytes(client)) {
        Some(Answer::Offer(_)) => "an offer",
        Some(Answer::Ack(_)) => "a lease",
        Some(Answer::Nak(_)) => "a refusal",
        None => "nothing",
    }
}

#[test]
fn an_offer_gives_all_that_it_says() {
    let Some(lease) = lease_in(&offer()) else {
        panic!("refused");
    };
    gives_addresses(&lease);
    same(lease.lease_duration, Some(3600));
    same(lease.renew_duration, Some(1800));
    same(lease.rebind_duration, Some(3150));
}

fn gives_addresses(lease: &Lease) {
    same(lease.address, address());
    same(lease.server, server());
    let mask = Ipv4Address::new(255, 255, 255, 0);
    same(lease.subnet_mask, Some(mask));
    let router = Ipv4Address::new(192, 168, 0, 254);
    same(lease.router, Some(router));
    let servers = [Ipv4Address::new(8, 8, 8, 8), Ipv4Address::new(1, 1, 1, 1)];
    same(dns_servers(lease), servers.as_slice());
}

fn dns_servers(lease: &Lease) -> &[Ipv4Address] {
    match &lease.dns_servers {
        Some(servers) => servers.as_slice(),
        None => &[],
    }
}

#[test]
fn answers_by_their_type() {
    same(kind_of(&of_type(2), 0x3d1d, &CLIENT), "an offer");
    same(kind_of(&of_type(5), 0x3d1d, &CLIENT), "a lease");
    same(kind_of(&of_type(6), 0x3d1d, &CLIENT), "a refusal");
    same(kind_of(&of_type(1), 0x3d1d, &CLIENT), "nothing");
}

#[test]
fn nothing_is_a_lease_of_no_address() {
    same(kind_of(&without_address(2), 0x3d1d, &CLIENT), "nothing");
    same(kind_of(&without_address(5), 0x3d1d, &CLIENT), "nothing");
    same(kind_of(&without_address(6), 0x3d1d, &CLIENT), "a refusal");
}

#[test]
fn a_refusal_tells_its_server() {
    let client = EthernetAddress::from_bytes(&CLIENT);
    let told = match read_answer(&without_address(6), 0x3d1d, client) {
        Some(Answer::Nak(server)) => Some(server),
        _ => None,
    };
    same(told, Some(server()));
}

#[test]
fn what_is_of_another_exchange_gives_nothing() {
    let mut octets = offer();
    let other = [0x00, 0x0b, 0x82, 0x01, 0xfc, 0x43];
    same(kind_of(&octets, 0x3d1e, &CLIENT), "nothing");
    same(kind_of(&octets, 0x3d1d, &other), "nothing");
    same(kind_of(&HEADER, 0x3d1d, &CLIENT), "nothing");
    // without the server's identifier
    octets[267] = 0x37;
    same(kind_of(&octets, 0x3d1d, &CLIENT), "nothing");
}

// An offer of two routers in the place of one.
fn with_two_routers() -> [u8; 298] {
    const ROUTERS: [u8; 11] = [
        0x03, 0x08, 0xc0, 0xa8, 0x00, 0xfd, 0xc0, 0xa8, 0x00, 0xfe, 0xff,
    ];
    let mut octets = [0; 298];
    octets[..294].copy_from_slice(&offer());
    octets[283..294].copy_from_slice(&ROUTERS);
    octets
}

#[test]
fn of_several_routers_the_first() {
    let router = match lease_in(&with_two_routers()) {
        Some(lease) => lease.router,
        None => None,
    };
    same(router, Some(Ipv4Address::new(192, 168, 0, 253)));
}

// The header of a message of that client in that exchange, up to its hardware address.
const SENT: [u8; 34] = [
    0x01, 0x01, 0x06, 0x00, 0x00, 0x00, 0x3d, 0x1d, 0x00, 0x00, 0x00, 0x00, 0x00, 0x00, 0x00, 0x00,
    0x00, 0x00, 0x00, 0x00, 0x00, 0x00, 0x00, 0x00, 0x00, 0x00, 0x00, 0x00, 0x00, 0x0b, 0x82, 0x01,
    0xfc, 0x42,
];

const COOKIE: [u8; 4] = [0x63, 0x82, 0x53, 0x63];

// Writes these bytes into others from a place on, where there is room.
fn lay(octets: &mut [u8], at: usize, part: &[u8]) {
    if let Some(rest) = octets.get_mut(at..) {
        if let Some(place) = rest.get_mut(..part.len()) {
            place.copy_from_slice(part);
        }
    }
}

// A message with this byte of flags, this address of the client, and these options.
fn message(flags: u8, own: &[u8; 4], options: &[u8]) -> [u8; 300] {
    let mut octets = [0; 300];
    lay(&mut octets, 0, &SENT);
    lay(&mut octets, 10, &[flags]);
    lay(&mut octets, 12, own);
    lay(&mut octets, 236, &COOKIE);
    lay(&mut octets, 240, options);
    octets
}

// Compares what is written with this message, of which the options take so many bytes.
fn check(sent: &Message, client: &Client<'_>, wanted: &[u8; 300], options_len: usize) {
    let len = (240 + options_len).max(client.min_len);
    let mut out = [0xa5; 310];
    same(write(sent, 0x3d1d, client, &mut out), Some(len));
    same_front(&out, wanted, len);
}

// Compares the first bytes, of which there are so many.
fn same_front(left: &[u8], right: &[u8], len: usize) {
    same(left.get(..len), right.get(..len));
    same(left.get(len), Some(&0xa5));
}

const QUIET: Client<'static> = Client {
    address: EthernetAddress(CLIENT),
    broadcast: false,
    requested: &[1, 3, 6],
    min_len: 0,
};

const LOUD: Client<'static> = Client {
    address: EthernetAddress(CLIENT),
    broadcast: true,
    requested: &[1, 3, 6, 15],
    min_len: 300,
};

#[test]
fn a_client_discovers() {
    const OPTIONS: &[u8] = &[
        0x35, 0x01, 0x01, 0x3d, 0x07, 0x01, 0x00, 0x0b, 0x82, 0x01, 0xfc, 0x42, 0x37, 0x03, 0x01,
        0x03, 0x06, 0xff,
    ];
    const LOUD_OPTIONS: &[u8] = &[
        0x35, 0x01, 0x01, 0x3d, 0x07, 0x01, 0x00, 0x0b, 0x82, 0x01, 0xfc, 0x42, 0x37, 0x04, 0x01,
        0x03, 0x06, 0x0f, 0xff,
    ];
    const NONE_OPTIONS: &[u8] = &[
        0x35, 0x01, 0x01, 0x3d, 0x07, 0x01, 0x00, 0x0b, 0x82, 0x01, 0xfc, 0x42, 0xff,
    ];
    check(
        &Message::Discover,
        &QUIET,
        &message(0, &[0; 4], OPTIONS),
        OPTIONS.len(),
    );
    check(
        &Message::Discover,
        &LOUD,
        &message(0x80, &[0; 4], LOUD_OPTIONS),
        LOUD_OPTIONS.len(),
    );
    let client = Client {
        requested: &[],
        ..QUIET
    };
    check(
        &Message::Discover,
        &client,
        &message(0, &[0; 4], NONE_OPTIONS),
        NONE_OPTIONS.len(),
    );
}

#[test]
fn a_client_requests_an_address() {
    const SELECT: &[u8] = &[
        0x35, 0x01, 0x03, 0x3d, 0x07, 0x01, 0x00, 0x0b, 0x82, 0x01, 0xfc, 0x42, 0x36, 0x04, 0xc0,
        0xa8, 0x00, 0x01, 0x32, 0x04, 0xc0, 0xa8, 0x00, 0x0a, 0x37, 0x03, 0x01, 0x03, 0x06, 0xff,
    ];
    const REBOOT: &[u8] = &[
        0x35, 0x01, 0x03, 0x3d, 0x07, 0x01, 0x00, 0x0b, 0x82, 0x01, 0xfc, 0x42, 0x32, 0x04, 0xc0,
        0xa8, 0x00, 0x0a, 0x37, 0x03, 0x01, 0x03, 0x06, 0xff,
    ];
    let select = Message::Select {
        server: server(),
        address: address(),
    };
    check(&select, &QUIET, &message(0, &[0; 4], SELECT), SELECT.len());
    let reboot = Message::Reboot { address: address() };
    check(&reboot, &QUIET, &message(0, &[0; 4], REBOOT), REBOOT.len());
}

#[test]
fn a_client_requests_more_time() {
    const OPTIONS: &[u8] = &[
        0x35, 0x01, 0x03, 0x3d, 0x07, 0x01, 0x00, 0x0b, 0x82, 0x01, 0xfc, 0x42, 0x37, 0x04, 0x01,
        0x03, 0x06, 0x0f, 0xff,
    ];
    const OWN: &[u8; 4] = &[0xc0, 0xa8, 0x00, 0x0a];
    let renew = Message::Renew { address: address() };
    check(&renew, &LOUD, &message(0x80, OWN, OPTIONS), OPTIONS.len());
    let rebind = Message::Rebind { address: address() };
    check(&rebind, &LOUD, &message(0x80, OWN, OPTIONS), OPTIONS.len());
}

#[test]
fn a_client_declines_and_releases() {
    const DECLINE: &[u8] = &[
        0x35, 0x01, 0x04, 0x3d, 0x07, 0x01, 0x00, 0x0b, 0x82, 0x01, 0xfc, 0x42, 0x36, 0x04, 0xc0,
        0xa8, 0x00, 0x01, 0x32, 0x04, 0xc0, 0xa8, 0x00, 0x0a, 0xff,
    ];
    const RELEASE: &[u8] = &[
        0x35, 0x01, 0x07, 0x3d, 0x07, 0x01, 0x00, 0x0b, 0x82, 0x01, 0xfc, 0x42, 0x36, 0x04, 0xc0,
        0xa8, 0x00, 0x01, 0xff,
    ];
    let decline = Message::Decline {
        server: server(),
        address: address(),
    };
    check(
        &decline,
        &LOUD,
        &message(0, &[0; 4], DECLINE),
        DECLINE.len(),
    );
    let release = Message::Release {
        server: server(),
        address: address(),
    };
    check(
        &release,
        &LOUD,
        &message(0, &[0xc0, 0xa8, 0x00, 0x0a], RELEASE),
        RELEASE.len(),
    );
}

#[test]
fn without_room_nothing_is_written() {
    let mut out = [0xa5; 299];
    same(write(&Message::Discover, 1, &LOUD, &mut out), None);
    same(out, [0xa5; 299]);
    let short = &mut out[..257];
    same(write(&Message::Discover, 1, &QUIET, short), None);
    same(out, [0xa5; 299]);
}
