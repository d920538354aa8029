// Made from crates/tests_above/src/frame/tunnel_display.rt by rust/erase.
use crate::testing::{prints, takes_writes};
use control_wire::frames::link::Network;
use control_wire::frames::tunnel::{Inner, Refusal, Tunnel};

#[test]
fn tunnels_in_a_line() {
    let rows = [
        (
            Tunnel::Ipv4,
            Network::Ipv4,
            "tunnel=IPv4 network=IPv4 len=3",
        ),
        (
            Tunnel::Ipv6,
            Network::Ipv6,
            "tunnel=IPv6 network=IPv6 len=3",
        ),
        (
            Tunnel::Gre,
            Network::Other(0x6558),
            "tunnel=GRE network=25944 len=3",
        ),
    ];
    for (tunnel, network, text) in rows {
        let inner = Inner {
            tunnel,
            network,
            payload: &[1, 2, 3],
        };
        prints(&inner, text);
    }
}

#[test]
fn tunnel_refusals_in_words() {
    let rows = [
        (Refusal::Short, "fewer than the 4 bytes of a GRE header"),
        (Refusal::Version(1), "GRE version 1 is not read"),
        (Refusal::Routing, "a GRE routing field is not read"),
        (Refusal::Reserved, "a reserved bit of GRE is set"),
        (
            Refusal::Cut(12),
            "fewer than the 12 bytes of the GRE header",
        ),
    ];
    for (refusal, text) in rows {
        prints(&refusal, text);
    }
    takes_writes(&Refusal::Cut(12), 3);
}
