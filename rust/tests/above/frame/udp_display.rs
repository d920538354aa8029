// Made from crates/tests_above/src/frame/udp_display.rt by rust/erase.
use crate::testing::prints;
use control_wire::frames::udp::{Refusal, UdpRepr};

#[test]
fn ports_and_refusals_in_words() {
    let ports = UdpRepr {
        src_port: 49152,
        dst_port: 53,
    };
    prints(&ports, "UDP src=49152 dst=53");
    let rows = [
        (Refusal::Short, "fewer than 8 bytes"),
        (Refusal::Length(7), "a length of 7 is below 8"),
        (Refusal::Cut(11), "fewer than its 11 bytes"),
        (Refusal::Port, "the destination port is 0"),
        (Refusal::NoChecksum, "no checksum over IPv6"),
        (Refusal::Checksum, "the checksum does not hold"),
    ];
    for (refusal, text) in rows {
        prints(&refusal, text);
    }
}
