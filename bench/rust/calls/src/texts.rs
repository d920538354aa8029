//! Addresses and numbers as texts.

use crate::measure::{prints, reads};
use crate::random::many;
use control_wire::{Duration, Ipv6Address};

/// The cases.
pub fn cases() {
    prints(
        "ipv4_address_display",
        &many(130, |random, _| random.ipv4()),
    );
    let addresses = many(131, |random, place| {
        let mut octets = random.ipv6().octets();
        octets[place % 16..].fill(0);
        octets[15] = place as u8 % 3;
        Ipv6Address::from_octets(octets)
    });
    prints("ipv6_address_display", &addresses);
    prints(
        "ethernet_address_display",
        &many(132, |random, _| random.ethernet()),
    );
    let durations = many(133, |random, _| {
        Duration::from_micros(random.below(1 << 40))
    });
    prints("duration_display", &durations);
    let texts: Vec<String> = addresses.iter().map(Ipv6Address::to_string).collect();
    reads("ipv6_address_from_str", &texts, |text| {
        text.parse::<Ipv6Address>()
    });
    #[cfg(feature = "later")]
    {
        let texts = ["A", "AAAA", "MX", "SOA", "TYPE99", "TYPE65535", "FOO", "a"];
        reads("dns_type_from_str", texts, |text| {
            text.parse::<control_wire::dns::Type>().ok()
        });
    }
    reads("ipv6_address_is_multicast", &addresses, |address| {
        (address.is_multicast(), address.is_link_local())
    });
}
