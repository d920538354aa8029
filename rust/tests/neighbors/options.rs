// Made from crates/tests_neighbors/src/options.rt by rust/erase.
//! Options read, printed, and written as they were: those of captures of a Linux router, and others worked from the
//! pictures of the RFCs.

use crate::testing::{prints, same, same_of};
use control_wire::Ipv6Address;
use control_wire::neighbors::{NeighborOption, OptionsWriter, Prefix};

// The octets of a buffer before it is written into.
const FILLS: &[u8] = &[0x00, 0xff, 0x2a, 0xa5];

// Checks that the octets are this option, which prints this.
pub(crate) fn check_read(octets: &[u8], option: NeighborOption<'_>, text: &str) {
    same(NeighborOption::parse(octets), Ok(option));
    prints(&option, text);
}

// Checks that the option is written as these octets, whatever the buffer held, and that what is behind it stays.
pub(crate) fn check_written(option: NeighborOption<'_>, octets: &[u8]) {
    let len = option.buffer_len();
    same(len, octets.len());
    for &fill in FILLS {
        let mut buffer = [fill; 64];
        let mut writer = OptionsWriter::new(&mut buffer);
        same_of(fill, writer.push(&option), Ok(()));
        same_of(fill, writer.len(), len);
        if len <= 64 {
            same_of(fill, &buffer[..len], octets);
            same_of(fill, &buffer[len..], &[fill; 64][len..]);
        }
    }
}

// Options of RFC 4861, RFC 3971 and RFC 6275.
#[test]
fn options_of_addresses_prefixes_and_links() {
    let rows: &[(&[u8], NeighborOption<'_>, &str)] = &[
        (
            &[0x01, 0x01, 0x02, 0x00, 0x00, 0x00, 0x00, 0x01],
            NeighborOption::SourceLinkLayerAddress(&[0x02, 0x00, 0x00, 0x00, 0x00, 0x01]),
            "source link-layer address 02:00:00:00:00:01",
        ),
        (
            &[0x02, 0x01, 0x02, 0x00, 0x00, 0x00, 0x00, 0x07],
            NeighborOption::TargetLinkLayerAddress(&[0x02, 0x00, 0x00, 0x00, 0x00, 0x07]),
            "target link-layer address 02:00:00:00:00:07",
        ),
        (
            &[
                0x01, 0x02, 0x00, 0x12, 0x4b, 0x00, 0x06, 0x0d, 0x9a, 0x3c, 0x00, 0x00, 0x00, 0x00,
                0x00, 0x00,
            ],
            NeighborOption::SourceLinkLayerAddress(&[
                0x00, 0x12, 0x4b, 0x00, 0x06, 0x0d, 0x9a, 0x3c, 0x00, 0x00, 0x00, 0x00, 0x00, 0x00,
            ]),
            "source link-layer address 00:12:4b:00:06:0d:9a:3c:00:00:00:00:00:00",
        ),
        (
            &[
                0x03, 0x04, 0x40, 0xc0, 0x00, 0x00, 0x0e, 0x10, 0x00, 0x00, 0x0e, 0x10, 0x00, 0x00,
                0x00, 0x00, 0x20, 0x01, 0x0d, 0xb8, 0x00, 0x01, 0x00, 0x00, 0x00, 0x00, 0x00, 0x00,
                0x00, 0x00, 0x00, 0x00,
            ],
            NeighborOption::Prefix(Prefix {
                prefix_len: 64,
                on_link: true,
                autonomous: true,
                router_address: false,
                valid_lifetime: 3600,
                preferred_lifetime: 3600,
                prefix: Ipv6Address::new(0x2001, 0xdb8, 1, 0, 0, 0, 0, 0),
            }),
            "prefix 2001:db8:1::/64 on_link=true autonomous=true router_address=false valid_lifetime=3600 \
             preferred_lifetime=3600",
        ),
        (
            &[
                0x03, 0x04, 0x40, 0xe0, 0xff, 0xff, 0xff, 0xff, 0x00, 0x01, 0x51, 0x80, 0x00, 0x00,
                0x00, 0x00, 0x20, 0x01, 0x0d, 0xb8, 0x00, 0x02, 0x00, 0x00, 0x00, 0x00, 0x00, 0x00,
                0x00, 0x00, 0x00, 0x01,
            ],
            NeighborOption::Prefix(Prefix {
                prefix_len: 64,
                on_link: true,
                autonomous: true,
                router_address: true,
                valid_lifetime: 0xffff_ffff,
                preferred_lifetime: 86_400,
                prefix: Ipv6Address::new(0x2001, 0xdb8, 2, 0, 0, 0, 0, 1),
            }),
            "prefix 2001:db8:2::1/64 on_link=true autonomous=true router_address=true valid_lifetime=4294967295 \
             preferred_lifetime=86400",
        ),
        (
            &[0x05, 0x01, 0x00, 0x00, 0x00, 0x00, 0x05, 0xdc],
            NeighborOption::Mtu(1500),
            "MTU 1500",
        ),
        (
            &[0x0e, 0x01, 0xd1, 0x9f, 0x4f, 0x85, 0x28, 0x8a],
            NeighborOption::Nonce(&[0xd1, 0x9f, 0x4f, 0x85, 0x28, 0x8a]),
            "nonce d19f4f85288a",
        ),
        (
            &[0x08, 0x01, 0x00, 0x00, 0x00, 0x64, 0x07, 0x08],
            NeighborOption::Other {
                kind: 8,
                data: &[0x00, 0x00, 0x00, 0x64, 0x07, 0x08],
            },
            "option 8 data=000000640708",
        ),
    ];
    for (octets, option, text) in rows {
        check_read(octets, *option, text);
        check_written(*option, octets);
    }
}
