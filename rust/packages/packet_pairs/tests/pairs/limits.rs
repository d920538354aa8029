// Made from crates/tests_packet_pairs/src/limits.rt by rust/erase.
// As many questions as are kept, and more.

use crate::made::{echo, lease, seen, to_host, to_server, udp};
use crate::testing::same_of;
use message_fields::{Message, Service};
use packet_pairs::{MOST_ANSWERED, MOST_WAITING, Pairs};

#[test]
fn questions_beyond_those_that_are_kept() {
    let mut pairs = Pairs::new();
    for seq_no in 0..2_050u16 {
        let octets = echo(8, seq_no);
        let told = seen(
            &mut pairs,
            seq_no as u64,
            0,
            &Message::Icmp4(&octets),
            &to_server(),
        );
        same_of(seq_no, told, None);
    }
    let (front, back) = pairs.waiting();
    same_of((), front.len() + back.len(), MOST_WAITING);
    same_of((), front.first().map(|asked| asked.number()), Some(2));
    same_of((), pairs.dropped(), 2);
    for (seq_no, want) in [
        (1, None),
        (2, Some((2, Some(3)))),
        (2_049, Some((2_049, Some(3)))),
    ] {
        let octets = echo(0, seq_no);
        let told = seen(&mut pairs, 0, 3, &Message::Icmp4(&octets), &to_host());
        same_of(seq_no, told, want);
    }
}

// The DISCOVER that was answered first is forgotten behind as many others.
#[test]
fn questions_that_others_may_answer() {
    let mut pairs = Pairs::new();
    for client in 0..=64u8 {
        for kind in [1, 2] {
            let octets = of_client(kind, client);
            let message = udp(Service::Dhcp, to_server(), &octets);
            let _told = seen(&mut pairs, client as u64, 0, &message, &to_server());
        }
    }
    same_of((), MOST_ANSWERED, 64);
    for (client, want) in [(0, None), (1, Some(1)), (64, Some(64))] {
        let octets = of_client(2, client);
        let message = udp(Service::Dhcp, to_server(), &octets);
        let told = seen(&mut pairs, 99, 0, &message, &to_server());
        same_of(client, told.map(|answered| answered.0), want);
    }
}

fn of_client(kind: u8, client: u8) -> [u8; 252] {
    let mut octets = lease(kind, [0, 68, 0, 67]);
    octets[41] = client;
    octets
}
