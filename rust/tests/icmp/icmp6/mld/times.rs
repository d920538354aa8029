// Made from crates/tests_icmp/src/icmp6/mld/times.rt by rust/erase.
use crate::testing::same_of;
use control_wire::Duration;
use control_wire::icmpv6::Packet;

#[test]
fn longest_times_to_answer_a_query_in() {
    // Codes, and the milliseconds that they mean.
    const ROWS: &[(u16, u64)] = &[
        (0x0000, 0),
        (0x0001, 1),
        (0x03e8, 1_000),
        (0x7fff, 32_767),
        (0x8000, 32_768),
        (0x8001, 32_776),
        (0x8fff, 65_528),
        (0x9000, 65_536),
        (0xffff, 8_387_584),
    ];
    for &(code, millis) in ROWS {
        let [high, low] = code.to_be_bytes();
        let octets = [0x82, 0, 0, 0, high, low];
        let packet = Packet::new_unchecked(&octets[..]);
        same_of(code, packet.max_resp_time(), Duration::from_millis(millis));
    }
}
