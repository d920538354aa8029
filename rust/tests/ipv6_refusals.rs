//! The order of the checks of a packet of IPv6: octets that fail two of them are refused by the first.

use control_wire::{Ipv6Packet, Ipv6Refusal, Ipv6Repr};

#[test]
fn octets_of_another_version_that_end_too_early_do_so_first() {
    let mut octets = [0; 52];
    octets[0] = 0x4f;
    octets[5] = 12;
    for len in 0..=52 {
        let want = match len {
            0..40 => Ipv6Refusal::Short,
            40..52 => Ipv6Refusal::Cut,
            _ => Ipv6Refusal::Version(4),
        };
        let packet = Ipv6Packet::new_unchecked(&octets[..len]);
        assert_eq!(Ipv6Repr::refusal(&packet), Some(want), "{len}");
        assert!(Ipv6Repr::parse(&packet).is_err(), "{len}");
    }
}
