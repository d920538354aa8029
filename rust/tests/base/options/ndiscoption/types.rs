// Made from crates/tests_base/src/options/ndiscoption/types.rt by rust/erase.
use crate::testing::{ascend, prints, same};
use control_wire::ndiscoption::{PrefixInfoFlags, Type};

#[test]
fn types_and_their_numbers() {
    const ROWS: &[(u8, Type, &str)] = &[
        (1, Type::SourceLinkLayerAddr, "source link-layer address"),
        (2, Type::TargetLinkLayerAddr, "target link-layer address"),
        (3, Type::PrefixInformation, "prefix information"),
        (4, Type::RedirectedHeader, "redirected header"),
        (5, Type::Mtu, "mtu"),
        (0, Type::Unknown(0), "0"),
        (14, Type::Unknown(14), "14"),
    ];
    for &(number, kind, text) in ROWS {
        same(Type::from(number), kind);
        same(u8::from(kind), number);
        prints(&kind, text);
    }
}

#[test]
fn order_of_types() {
    const TYPES: &[Type] = &[
        Type::SourceLinkLayerAddr,
        Type::TargetLinkLayerAddr,
        Type::PrefixInformation,
        Type::RedirectedHeader,
        Type::Mtu,
        Type::Unknown(0),
        Type::Unknown(14),
    ];
    ascend(TYPES);
}

#[test]
fn sets_of_flags() {
    let both = PrefixInfoFlags::ON_LINK | PrefixInfoFlags::ADDRCONF;
    let others = [
        PrefixInfoFlags::all(),
        PrefixInfoFlags::from_bits_truncate(0xc1),
    ];
    same(others, [both; 2]);
    let bits = [
        both.bits(),
        PrefixInfoFlags::empty().bits(),
        PrefixInfoFlags::from_bits_retain(0xc1).bits(),
    ];
    same(bits, [0xc0, 0, 0xc1]);
    same(PrefixInfoFlags::from_bits(0xc1), None);
}

#[test]
fn flags_in_words() {
    const ROWS: &[(u8, &str)] = &[
        (0x00, "-"),
        (0x3f, "-"),
        (0x40, "addrconf"),
        (0x80, "on_link"),
        (0xff, "on_link,addrconf"),
    ];
    for &(bits, text) in ROWS {
        let flags = PrefixInfoFlags::from_bits_retain(bits);
        prints(&flags, text);
    }
}

#[test]
fn flags_are_joined_and_parted() {
    let both = PrefixInfoFlags::all();
    let others = [
        !PrefixInfoFlags::ON_LINK,
        both - PrefixInfoFlags::ON_LINK,
        both ^ PrefixInfoFlags::ON_LINK,
    ];
    same(others, [PrefixInfoFlags::ADDRCONF; 3]);
    same(both & PrefixInfoFlags::ON_LINK, PrefixInfoFlags::ON_LINK);
    same(both.contains(PrefixInfoFlags::ON_LINK), true);
    let share = PrefixInfoFlags::ON_LINK.intersects(PrefixInfoFlags::ADDRCONF);
    same(share, false);
}

#[test]
fn flags_are_put_in_and_taken_out() {
    let both = PrefixInfoFlags::all();
    let mut flags = PrefixInfoFlags::empty();
    flags.insert(PrefixInfoFlags::ON_LINK);
    flags.toggle(both);
    same(flags, PrefixInfoFlags::ADDRCONF);
    flags.remove(both);
    same(flags.is_empty(), true);
}
