//! Every format of the library, read and written, to see how large it is at most.
#![no_std]

use control_wire::quotes::{icmpv4_error, icmpv6_error};
use control_wire::record::Name;
use control_wire::{
    ChecksumCapabilities, Ipv6Address, dhcpv4, dns, icmpv4, icmpv6, igmp, ipv6ext_header, ipv6hbh,
    mld, ndiscoption,
};

/// Exports a function that reads a value from the octets and writes it over the front of `out`. It answers how many
/// bytes that takes: 0 where it is refused or has no room.
macro_rules! read_and_write {
    ($name:ident, |$octets:ident, $caps:ident| $read:expr, $len:expr, $write:expr) => {
        #[unsafe(no_mangle)]
        pub fn $name($octets: &[u8], out: &mut [u8], $caps: &ChecksumCapabilities) -> usize {
            let Ok(value) = $read else { return 0 };
            let len = $len(&value);
            let Some(out) = out.get_mut(..len) else {
                return 0;
            };
            $write(&value, out, $caps);
            len
        }
    };
}

const SOURCE: Ipv6Address = Ipv6Address::new(0xfe80, 0, 0, 0, 0, 0, 0, 1);
const DESTINATION: Ipv6Address = Ipv6Address::new(0xfe80, 0, 0, 0, 0, 0, 0, 2);

read_and_write!(
    icmpv4_message,
    |octets, caps| icmpv4::Repr::parse(&icmpv4::Packet::new_unchecked(octets), caps),
    icmpv4::Repr::buffer_len,
    |value: &icmpv4::Repr<'_>, out, caps| value.emit_into(out, caps)
);
read_and_write!(
    icmpv4_error,
    |octets, caps| icmpv4_error::Repr::parse(octets, caps),
    icmpv4_error::Repr::buffer_len,
    |value: &icmpv4_error::Repr<'_>, out, caps| value.emit_into(out, caps)
);
read_and_write!(
    igmp_message,
    |octets, _caps| igmp::Repr::parse(&igmp::Packet::new_unchecked(octets)),
    igmp::Repr::buffer_len,
    |value: &igmp::Repr, out, _| value.emit_into(out)
);
read_and_write!(
    icmpv6_message,
    |octets, caps| icmpv6::Repr::parse(
        &SOURCE,
        &DESTINATION,
        &icmpv6::Packet::new_unchecked(octets),
        caps
    ),
    icmpv6::Repr::buffer_len,
    |value: &icmpv6::Repr<'_>, out, caps| value.emit_into(&SOURCE, &DESTINATION, out, caps)
);
read_and_write!(
    icmpv6_error,
    |octets, caps| icmpv6_error::Repr::parse(&SOURCE, &DESTINATION, octets, caps),
    icmpv6_error::Repr::buffer_len,
    |value: &icmpv6_error::Repr<'_>, out, caps| value.emit_into(&SOURCE, &DESTINATION, out, caps)
);
read_and_write!(
    mld_record,
    |octets, _caps| mld::AddressRecord::new_checked(octets)
        .and_then(|view| mld::AddressRecordRepr::parse(&view)),
    mld::AddressRecordRepr::buffer_len,
    |value: &mld::AddressRecordRepr<'_>, out, _| value.emit_into(out)
);
read_and_write!(
    ndisc_option,
    |octets, _caps| ndiscoption::NdiscOption::new_checked(octets)
        .and_then(|view| ndiscoption::Repr::parse(&view)),
    ndiscoption::Repr::buffer_len,
    |value: &ndiscoption::Repr<'_>, out, _| value.emit_into(out)
);
read_and_write!(
    hop_by_hop,
    |octets, _caps| ipv6hbh::Header::new_checked(octets)
        .and_then(|view| ipv6hbh::Repr::parse(&view)),
    ipv6hbh::Repr::buffer_len,
    |value: &ipv6hbh::Repr<'_>, out, _| value.emit_into(out)
);
read_and_write!(
    extension_header,
    |octets, _caps| ipv6ext_header::Header::new_checked(octets)
        .and_then(|view| ipv6ext_header::Repr::parse(&view)),
    ipv6ext_header::Repr::header_len,
    |value: &ipv6ext_header::Repr<'_>, out, _| value.emit_into(out)
);
read_and_write!(
    dhcp_message,
    |octets, _caps| dhcpv4::Packet::new_checked(octets).and_then(|view| dhcpv4::Repr::parse(&view)),
    dhcpv4::Repr::buffer_len,
    |value: &dhcpv4::Repr<'_>, out, _| value.emit_into(out).is_ok()
);
read_and_write!(
    dns_question,
    |octets, _caps| dns::Question::parse(octets).map(|(_, question)| question),
    dns::Question::buffer_len,
    |value: &dns::Question<'_>, out, _| value.emit(out)
);

/// Writes the query for the addresses of a name in text. It answers how many bytes that takes, or 0.
#[unsafe(no_mangle)]
pub fn dns_query(text: &[u8], out: &mut [u8]) -> usize {
    let Ok(name) = Name::from_text(text) else {
        return 0;
    };
    let question = dns::Question {
        name: name.octets(),
        type_: dns::Type::A,
    };
    let query = dns::Repr {
        transaction_id: 1,
        opcode: dns::Opcode::Query,
        flags: dns::Flags::RECURSION_DESIRED,
        question,
    };
    let Some(out) = out.get_mut(..query.buffer_len()) else {
        return 0;
    };
    query.emit_into(out);
    query.buffer_len()
}

/// Counts the bytes of the names of a response's records, and of their addresses.
#[unsafe(no_mangle)]
pub fn dns_response(octets: &[u8]) -> usize {
    let Ok(packet) = dns::Packet::new_checked(octets) else {
        return 0;
    };
    let Ok((mut rest, _)) = dns::Question::parse(packet.payload()) else {
        return 0;
    };
    let mut count = 0;
    for _ in 0..packet.answer_record_count() {
        let Ok((behind, record)) = dns::Record::parse(rest) else {
            return 0;
        };
        let Ok(name) = Name::read(&packet, record.name) else {
            return 0;
        };
        count += name.octets().len();
        count += match record.data {
            dns::RecordData::A(_) => 4,
            dns::RecordData::Aaaa(_) => 16,
            dns::RecordData::Cname(name) => name.len(),
            dns::RecordData::Other(_, data) => data.len(),
        };
        rest = behind;
    }
    count
}

unsafe extern "C" {
    safe fn halt() -> !;
}

#[panic_handler]
fn panic(_: &core::panic::PanicInfo<'_>) -> ! {
    halt()
}
