//! What is written by hand: the calls of addresses, conversions, order, hashes, errors, and views over what lends a
//! slice.

use control_wire::dns::Type;
use control_wire::icmpv4::{Packet, Repr};
use control_wire::record::{
    ClassName, EdnsOptions, Entries, Name, NameTextRefusal, Section, TxtStrings, classes, types,
};
use control_wire::{
    ChecksumCapabilities, Duration, Error, EthernetAddress, Ipv4Address, Ipv6Address, Ipv6Packet,
    RawHardwareAddress, dns, headers, icmpv6, igmp, ipv6option, mld, ndisc, ndiscoption,
};
use std::collections::HashSet;
use std::hash::{BuildHasher, RandomState};
use std::net::{Ipv4Addr, Ipv6Addr};

const ECHO: [u8; 12] = [
    0x08, 0x00, 0x8e, 0xfe, 0x12, 0x34, 0xab, 0xcd, 0xaa, 0x00, 0x00, 0xff,
];

#[test]
fn addresses_of_ipv4_convert_both_ways() {
    let ours = Ipv4Address::new(192, 0, 2, 1);
    let theirs = Ipv4Addr::new(192, 0, 2, 1);
    assert_eq!(Ipv4Addr::from(ours), theirs);
    assert_eq!(Ipv4Address::from(theirs), ours);
    assert_eq!(ours.to_string(), theirs.to_string());
}

#[test]
fn addresses_of_ipv6_convert_both_ways() {
    let ours = Ipv6Address::new(0xfe80, 0, 0, 0, 0x5054, 0xff, 0xfe12, 0x3456);
    let theirs = Ipv6Addr::new(0xfe80, 0, 0, 0, 0x5054, 0xff, 0xfe12, 0x3456);
    assert_eq!(Ipv6Addr::from(ours), theirs);
    assert_eq!(Ipv6Address::from(theirs), ours);
    assert_eq!(ours.to_string(), theirs.to_string());
}

// All patterns of zero groups, against std's own text, which has a dotted part for some that begin with zeros.
#[test]
fn addresses_of_ipv6_print_as_those_of_std_but_for_a_dotted_part() {
    for pattern in 0..256_u16 {
        let groups: [u16; 8] = std::array::from_fn(|i| (pattern >> i & 1) * (0xa0 + i as u16));
        let address = Ipv6Addr::from(groups);
        let text = Ipv6Address::from(address).to_string();
        assert_eq!(text.parse(), Ok(address));
        if !address.to_string().contains('.') {
            assert_eq!(text, address.to_string());
        }
    }
    let mapped = Ipv6Address::new(0, 0, 0, 0, 0, 0xffff, 0x0102, 0x0304);
    assert_eq!(mapped.to_string(), "::ffff:102:304");
}

#[test]
fn addresses_of_ip_are_debugged_by_their_text() {
    let group = igmp::Repr::LeaveGroup {
        group_addr: Ipv4Address::new(224, 0, 6, 150),
    };
    assert_eq!(
        format!("{group:?}"),
        "LeaveGroup { group_addr: 224.0.6.150 }"
    );
    assert_eq!(
        format!("{:?}", Ipv6Address::new(0xff02, 0, 0, 0, 0, 0, 0, 2)),
        "ff02::2"
    );
}

// Each call against that of std's address, over addresses of each kind.
#[test]
fn addresses_of_ipv4_have_the_calls_of_std() {
    let texts = [
        "0.0.0.0",
        "127.0.0.1",
        "127.255.255.255",
        "128.0.0.1",
        "9.255.255.255",
        "10.0.0.1",
        "172.15.255.255",
        "172.16.0.0",
        "172.31.255.255",
        "172.32.0.0",
        "192.167.0.1",
        "192.168.0.1",
        "192.169.0.1",
        "169.253.0.1",
        "169.254.0.1",
        "224.0.0.1",
        "255.255.255.254",
        "255.255.255.255",
    ];
    for text in texts {
        let theirs: Ipv4Addr = text.parse().unwrap();
        let ours: Ipv4Address = text.parse().unwrap();
        assert_eq!(Ipv4Addr::from(ours), theirs);
        assert_eq!(ours.is_broadcast(), theirs.is_broadcast(), "{text}");
        assert_eq!(ours.is_loopback(), theirs.is_loopback(), "{text}");
        assert_eq!(ours.is_private(), theirs.is_private(), "{text}");
        assert_eq!(ours.is_link_local(), theirs.is_link_local(), "{text}");
        assert_eq!(ours.is_unspecified(), theirs.is_unspecified(), "{text}");
        assert_eq!(ours.is_multicast(), theirs.is_multicast(), "{text}");
        assert_eq!(ours.to_bits(), theirs.to_bits());
        assert_eq!(Ipv4Address::from_bits(theirs.to_bits()), ours);
    }
    assert_eq!(Ipv4Address::BROADCAST, Ipv4Addr::BROADCAST.into());
    assert_eq!(Ipv4Address::LOCALHOST, Ipv4Addr::LOCALHOST.into());
    for text in ["", "1.2.3", "1.2.3.256", "1.2.3.4 ", "01.2.3.4", "::1"] {
        assert!(text.parse::<Ipv4Address>().is_err(), "{text}");
    }
}

#[test]
fn addresses_of_ipv6_have_the_calls_of_std() {
    for text in [
        "::",
        "::1",
        "::2",
        "fe80::5054:ff:fe12:3456",
        "1:2:3:4:5:6:7:8",
    ] {
        let theirs: Ipv6Addr = text.parse().unwrap();
        let ours: Ipv6Address = text.parse().unwrap();
        assert_eq!(Ipv6Addr::from(ours), theirs);
        assert_eq!(ours.segments(), theirs.segments());
        assert_eq!(ours.is_loopback(), theirs.is_loopback(), "{text}");
        assert_eq!(ours.to_bits(), theirs.to_bits());
        assert_eq!(Ipv6Address::from_bits(theirs.to_bits()), ours);
    }
    assert_eq!(Ipv6Address::LOCALHOST, Ipv6Addr::LOCALHOST.into());
    for text in ["", "1:2", "1::2::3", "::g", "127.0.0.1"] {
        assert!(text.parse::<Ipv6Address>().is_err(), "{text}");
    }
}

// The address of RFC 4291 section 2.7.1, and its group there.
#[test]
fn a_neighbor_listens_to_its_solicited_node_group() {
    let address: Ipv6Address = "4037::01:800:200e:8c6c".parse().unwrap();
    assert_eq!(address.solicited_node().to_string(), "ff02::1:ff0e:8c6c");
    let address: Ipv6Address = "fe80::ffff:ffff".parse().unwrap();
    assert_eq!(address.solicited_node().to_string(), "ff02::1:ffff:ffff");
    assert_eq!(
        Ipv6Address::UNSPECIFIED.solicited_node().to_string(),
        "ff02::1:ff00:0"
    );
}

#[test]
fn addresses_of_ethernet_to_many_receivers() {
    let one = EthernetAddress([0x02, 0xff, 0xff, 0xff, 0xff, 0xff]);
    let group = EthernetAddress([0x33, 0x33, 0, 0, 0, 1]);
    let all = EthernetAddress([0xff; 6]);
    assert_eq!(EthernetAddress::BROADCAST, all);
    assert_eq!(
        [one, group, all].map(|it| it.is_broadcast()),
        [false, false, true]
    );
    assert_eq!(
        [one, group, all].map(|it| it.is_multicast()),
        [false, true, true]
    );
}

#[test]
fn durations_become_those_of_core() {
    let micros = std::time::Duration::from_micros(u64::MAX);
    assert_eq!(
        std::time::Duration::from(Duration::from_micros(u64::MAX)),
        micros
    );
}

#[test]
fn addresses_have_the_order_of_their_octets() {
    let mut addresses = [
        Ipv4Address::new(10, 0, 1, 0),
        Ipv4Address::new(9, 255, 255, 255),
        Ipv4Address::new(10, 0, 0, 255),
    ];
    addresses.sort();
    assert_eq!(addresses.map(|address| address.octets()[0]), [9, 10, 10]);
    assert_eq!(addresses[1].octets()[3], 255);
    assert!(
        Ipv6Address::new(0xfe80, 0, 0, 0, 0, 0, 0, 2)
            > Ipv6Address::new(0xfe80, 0, 0, 0, 0, 0, 0, 1)
    );
    assert!(EthernetAddress([2, 0, 0, 0, 0, 1]) < EthernetAddress([2, 0, 0, 0, 1, 0]));
    assert!(RawHardwareAddress::from_bytes(&[1]) < RawHardwareAddress::from_bytes(&[1, 0]));
}

#[test]
fn equal_addresses_have_equal_hashes() {
    let state = RandomState::new();
    let short = RawHardwareAddress::from_bytes(&[1, 2]);
    assert_eq!(
        state.hash_one(short),
        state.hash_one(RawHardwareAddress::from_bytes(&[1, 2]))
    );
    let octets = [0x02, 0, 0, 0, 0, 1];
    let held: HashSet<EthernetAddress> = [EthernetAddress(octets), EthernetAddress(octets)].into();
    assert_eq!(held.len(), 1);
    let held: HashSet<Ipv6Address> =
        [Ipv6Address::UNSPECIFIED, Ipv6Address::from_octets([0; 16])].into();
    assert_eq!(held.len(), 1);
    assert_eq!(
        state.hash_one(Ipv4Address::UNSPECIFIED),
        state.hash_one(Ipv4Address::from_octets([0; 4]))
    );
}

#[test]
fn an_error_is_an_error() -> Result<(), Box<dyn std::error::Error>> {
    let boxed: Box<dyn std::error::Error> = Error.into();
    assert_eq!(boxed.to_string(), "wire::Error");
    Packet::new_checked(&ECHO)?;
    Ok(())
}

// Each reason of `headers`, as an error of `core` that prints it.
#[test]
fn reasons_of_headers_are_errors() {
    use headers::{OptionRefusal, arp, ethernet, icmpv4, icmpv6, ipv4, ipv6_fragment};

    let errors: [(Box<dyn std::error::Error>, &str); 7] = [
        (arp::Refusal::Short.into(), "fewer than 28 bytes"),
        (ethernet::Refusal::Short.into(), "fewer than 14 bytes"),
        (icmpv4::Refusal::Code(1).into(), "code 1 is not 0"),
        (icmpv6::Refusal::UnknownType(8).into(), "type 8 is not read"),
        (ipv4::Refusal::Version(6).into(), "version 6 is not read"),
        (ipv6_fragment::Refusal::Short.into(), "fewer than 8 bytes"),
        (OptionRefusal::Length(1).into(), "a length of 1 is below 2"),
    ];
    for (error, text) in errors {
        assert_eq!(error.to_string(), text);
        assert!(error.source().is_none());
    }
}

// One value, whatever lends its octets.
#[test]
fn views_over_what_lends_a_slice() {
    fn ident<T: AsRef<[u8]> + ?Sized>(octets: &T) -> Option<u16> {
        let packet = Packet::new_checked(octets).ok()?;
        let caps = ChecksumCapabilities::default();
        match Repr::parse(&packet, &caps).ok()? {
            Repr::EchoRequest { ident, data, .. } if data == packet.data() => Some(ident),
            _ => None,
        }
    }
    assert_eq!(ident(&ECHO), Some(0x1234));
    assert_eq!(ident(&ECHO[..]), Some(0x1234));
    assert_eq!(ident(&Vec::from(ECHO)), Some(0x1234));
    assert_eq!(ident(&Box::<[u8]>::from(ECHO)), Some(0x1234));
    assert_eq!(ident(&arrayvec::ArrayVec::from(ECHO)), Some(0x1234));
    assert_eq!(Packet::new_unchecked(ECHO).echo_seq_no(), 0xabcd);
    assert_eq!(Packet::new_unchecked(Vec::from(ECHO)).into_inner(), ECHO);
}

#[test]
fn views_over_what_lends_a_slice_for_writing() {
    let mut array = Packet::new_unchecked(ECHO);
    array.set_echo_ident(0x4321);
    array.fill_checksum();
    let mut vector = Packet::new_unchecked(Vec::from(ECHO));
    vector.set_echo_ident(0x4321);
    vector.fill_checksum();
    let mut octets = ECHO;
    let mut slice = Packet::new_unchecked(&mut octets[..]);
    slice.set_echo_ident(0x4321);
    slice.fill_checksum();
    assert!(array.verify_checksum() && vector.verify_checksum());
    assert_eq!(array.into_inner(), octets);
    assert_eq!(vector.into_inner(), octets);
}

// A packet without a message, whose octets a constant has.
const EMPTY: Packet<[u8; 8]> = Packet::new_unchecked([0; 8]);

const ECHO_LEN: usize = Repr::EchoReply {
    ident: 1,
    seq_no: 2,
    data: &ECHO,
}
.buffer_len();

const JOIN: [mld::AddressRecordRepr; 1] = [mld::AddressRecordRepr::new(
    mld::RecordType::ChangeToExclude,
    Ipv6Address::new(0xff02, 0, 0, 0, 0, 0, 0, 2),
)];

const REPORT_LEN: usize = mld::Repr::ReportRecordReprs(&JOIN).packet_len();

const ALERT_LEN: usize = ipv6option::Repr::RouterAlert(ipv6option::RouterAlert::Rsvp).buffer_len();

#[test]
fn constants_of_views_and_lengths() {
    assert_eq!(EMPTY.into_inner(), [0; 8]);
    assert_eq!([ECHO_LEN, REPORT_LEN, ALERT_LEN], [20, 28, 4]);
    const VIEW: icmpv6::Packet<&[u8]> = icmpv6::Packet::new_unchecked(&ECHO);
    assert_eq!(VIEW.msg_code(), 0);
    const OPTION: ndiscoption::NdiscOption<&[u8]> = ndiscoption::NdiscOption::new_unchecked(&ECHO);
    assert_eq!(OPTION.data_len(), 0);
    assert_eq!(ipv6option::FailureType::DiscardSendAll as u8, 0x80);
}

// The octets of whatever lends them.
fn octets_of(lender: &impl AsRef<[u8]>) -> &[u8] {
    lender.as_ref()
}

#[test]
fn packets_lend_their_octets() {
    assert_eq!(octets_of(&Packet::new_unchecked(ECHO)), ECHO);
    assert_eq!(octets_of(&icmpv6::Packet::new_unchecked(ECHO)), ECHO);
    assert_eq!(octets_of(&Ipv6Packet::new_unchecked(ECHO)), ECHO);
}

#[test]
fn sets_of_flags_have_the_calls_of_bitflags() {
    let mut flags = ndisc::NeighborFlags::SOLICITED;
    flags |= ndisc::NeighborFlags::OVERRIDE;
    assert!(flags.contains(ndisc::NeighborFlags::OVERRIDE) && !flags.is_all());
    assert_eq!(format!("{flags:?}"), "NeighborFlags(SOLICITED | OVERRIDE)");
    assert_eq!(format!("{flags:#x}"), "0x60");
    assert_eq!(flags.iter().count(), 2);
    assert_eq!(dns::Flags::all().bits(), 0x87b0);
    assert_eq!(!dns::Flags::empty(), dns::Flags::all());
}

#[test]
fn names_have_the_traits_of_values() {
    let name: Name = "www.example.com".parse().unwrap();
    let other: Name = "WWW.Example.com.".parse().unwrap();
    assert_eq!(name, other);
    assert_eq!(name.clone(), name);
    assert_eq!(format!("{name:?}"), "Name(www.example.com)");
    let names = HashSet::from([name, "example.com".parse().unwrap()]);
    assert!(names.contains(&other));
    assert!(!names.contains(&"www.example.org".parse().unwrap()));
    assert_eq!("a..b".parse::<Name>(), Err(NameTextRefusal::EmptyLabel));
}

#[test]
fn names_are_in_canonical_order() {
    // The names of RFC 4034 section 6.1, in their order, and the root before them.
    let texts = [
        ".",
        "example",
        "a.example",
        "yljkjljk.a.example",
        "Z.a.example",
        "zABC.a.EXAMPLE",
        "z.example",
        "\\001.z.example",
        "*.z.example",
        "\\200.z.example",
    ];
    let names = texts.map(|text| text.parse::<Name>().unwrap());
    for (left, a) in names.iter().enumerate() {
        for (right, b) in names.iter().enumerate() {
            assert_eq!(a.cmp(b), left.cmp(&right), "{a} {b}");
            assert_eq!(a == b, a.cmp(b).is_eq());
        }
    }
    let upper: Name = "A.Example".parse().unwrap();
    assert!(upper == names[2] && upper.cmp(&names[2]).is_eq());
}

#[test]
fn types_of_record_are_read_from_their_mnemonics() {
    for type_ in (0..=u16::MAX).map(Type::from) {
        let number = u16::from(type_);
        assert_eq!(type_.to_string().parse(), Ok(type_));
        assert_eq!(type_.to_string().to_lowercase().parse(), Ok(type_));
        assert_eq!(format!("TYPE{number}").parse(), Ok(type_));
    }
    for text in [
        "",
        "TYPE",
        "TYPE65536",
        "TYPE+1",
        "TYPE-1",
        "TYP1",
        "M",
        "MXX",
        "MX ",
        " MX",
        "15",
        "TYPÉ1",
    ] {
        assert_eq!(text.parse::<Type>(), Err(Error), "{text}");
    }
}

#[test]
fn values_of_records_are_keys_of_maps() {
    let keys = HashSet::from([(types::MX, ClassName(classes::IN), Section::Answer)]);
    assert!(keys.contains(&(Type::from(15), ClassName(1), Section::Answer)));
    assert!(!keys.contains(&(types::NS, ClassName(1), Section::Answer)));
}

#[test]
fn entries_can_be_seen_and_taken_twice() {
    let octets = b"\0\x01\0\0\0\x01\0\0\0\0\0\0\x03www\0\0\x01\0\x01";
    let packet = dns::Packet::new_checked(&octets[..]).unwrap();
    let mut entries = Entries::new(&packet);
    let copy = entries.clone();
    let text = entries
        .next()
        .unwrap()
        .unwrap()
        .text(&packet, false)
        .unwrap();
    assert_eq!(format!("{text:?}"), "EntryText(question www. IN A)");
    assert_eq!((entries.count(), copy.clone().count()), (0, 1));
    assert!(format!("{copy:?}").starts_with("Entries {"));
}

#[test]
fn strings_and_options_can_be_taken_twice() {
    let mut strings = TxtStrings::new(b"\x01a\x02bc");
    assert_eq!(strings.next(), Some(&b"a"[..]));
    assert!(strings.clone().eq(strings));
    let mut options = EdnsOptions::new(b"\0\x03\0\0\0\x0a\0\x02\x01\x23");
    assert!(options.next().unwrap().is_ok());
    assert!(options.clone().eq(options));
}
