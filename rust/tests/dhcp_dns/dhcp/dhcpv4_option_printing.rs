// Made from crates/tests_dhcp_dns/src/dhcp/dhcpv4_option_printing.rt by rust/erase.
#[allow(unused_imports)]
use crate::rattle_std::prelude::*;
use crate::testing::{prints, same_of};
use control_wire::Ipv4Address;
use control_wire::dhcpv4::{DhcpOption, MessageType, OptionAddresses, OptionValue};

#[test]
fn options_by_their_formats() {
    // An option of each format, of another length than that format has, and of kinds without a name.
    const ROWS: &[(u8, &[u8], &str)] = &[
        (1, &[255, 255, 255, 0], "subnet-mask=255.255.255.0"),
        (1, &[255, 255, 255], "subnet-mask=ff:ff:ff"),
        (
            3,
            &[192, 0, 2, 1, 192, 0, 2, 2],
            "router=192.0.2.1,192.0.2.2",
        ),
        (3, &[192, 0, 2, 1, 9], "router=c0:00:02:01:09"),
        (6, &[], "domain-name-server="),
        (12, b"host 7", "host-name=\"host 7\""),
        (
            15,
            b"a\"b\\c\n~\x7f\xff",
            "domain-name=\"a\\\"b\\\\c\\x0a~\\x7f\\xff\"",
        ),
        (26, &[0x05, 0xdc], "interface-mtu=1500"),
        (26, &[0x05], "interface-mtu=05"),
        (46, &[8], "netbios-node-type=8"),
        (46, &[8, 0], "netbios-node-type=08:00"),
        (50, &[192, 0, 2, 77], "requested-address=192.0.2.77"),
        (51, &[0, 0, 0x0e, 0x10], "lease-time=3600"),
        (51, &[0x0e, 0x10], "lease-time=0e:10"),
        (53, &[2], "message-type=OFFER"),
        (53, &[34], "message-type=unknown 34"),
        (53, &[], "message-type="),
        (55, &[1, 3, 121], "parameter-request-list=1,3,121"),
        (
            61,
            &[1, 0x52, 0x54, 0, 0, 0, 1],
            "client-identifier=01:52:54:00:00:00:01",
        ),
        (80, &[], "rapid-commit="),
        (114, b"https://a/", "captive-portal=\"https://a/\""),
        (
            121,
            &[24, 192, 0, 2, 0, 0, 0, 0],
            "classless-static-route=18:c0:00:02:00:00:00:00",
        ),
        (150, &[192, 0, 2, 9], "tftp-server-addresses=192.0.2.9"),
        (0, &[], "option-0="),
        (62, &[1], "option-62=01"),
        (224, &[0xab, 0xcd], "option-224=ab:cd"),
        (255, &[], "option-255="),
    ];
    for &(kind, data, text) in ROWS {
        prints(&DhcpOption { kind, data }, text);
    }
}

#[test]
fn values_of_options() {
    let address = Ipv4Address::new(192, 0, 2, 1);
    let rows = [
        (54, &[192, 0, 2, 1][..], OptionValue::Address(address)),
        (
            33,
            &[1, 2, 3, 4, 5, 6, 7, 8],
            OptionValue::Addresses(&[1, 2, 3, 4, 5, 6, 7, 8]),
        ),
        (58, &[0, 1, 0, 0], OptionValue::Seconds(65_536)),
        (57, &[0x05, 0xdc], OptionValue::Number(1_500)),
        (23, &[64], OptionValue::Byte(64)),
        (53, &[5], OptionValue::MessageType(MessageType::Ack)),
        (17, b"/srv", OptionValue::Text(b"/srv")),
        (55, &[6], OptionValue::Kinds(&[6])),
        (43, &[1], OptionValue::Octets(&[1])),
        (200, &[1], OptionValue::Octets(&[1])),
    ];
    for (kind, data, want) in rows {
        let option = DhcpOption { kind, data };
        same_of(kind, option.value(), want);
        same_of(kind, option.name().is_some(), kind != 200);
    }
}

#[test]
fn addresses_in_turn() {
    let mut addresses = OptionAddresses::new(&[192, 0, 2, 1, 192, 0, 2, 2, 192, 0]);
    same_of(0, addresses.next(), Some(Ipv4Address::new(192, 0, 2, 1)));
    same_of(1, addresses.next(), Some(Ipv4Address::new(192, 0, 2, 2)));
    same_of(2, addresses.next(), None);
    same_of(3, addresses.next(), None);
}

// Its text is written with a stack that does not grow with the number of addresses.
#[test]
fn option_of_fifty_thousand_addresses() {
    let data = [7; 200_000];
    let option = DhcpOption {
        kind: 6,
        data: &data,
    };
    let printed = option.to_string_in().ok();
    let len = match printed.as_deref() {
        Some(text) => text.len(),
        None => 0,
    };
    // domain-name-server=7.7.7.7,7.7.7.7,..
    same_of((), len, 19 + 50_000 * 8 - 1);
}
