// Made from crates/tests_pcapdump/src/pcapdump/refusal.rt by rust/erase.
//! Why packets are refused, and the reasons under which they are counted.

use crate::testing::{prints, same_of};
use control_wire::frames::{link, udp};
use control_wire::icmpv6;
use control_wire::quotes::message::{Icmpv4Refusal, Icmpv6Refusal};
use control_wire::quotes::{icmpv4_error, quote};
use control_wire::record::{
    DataRefusal, NameRefusal, OptionRefusal, PartRefusal, Section, TextRefusal,
};
use control_wire::{icmpv4, igmp};
use dns_fields::unread::Unread;
use dump_captures::kind::Reason;
use dump_captures::refusal::Refusal;
use message_fields as messages;
use neighbor_fields::Lack;

#[test]
fn refusals_print_a_phrase_and_are_counted_under_a_reason() {
    let quote = icmpv4_error::Refusal::Quote(quote::Refusal::Version(6));
    let rows: &[(Refusal, Reason, &str)] = &[
        (
            Refusal::Frame(link::Refusal::Tag),
            Reason::Short,
            "a VLAN tag is cut short",
        ),
        (
            Refusal::Frame(link::Refusal::SessionCode(9)),
            Reason::Malformed,
            "PPPoE code 9 is not read",
        ),
        (
            Refusal::Datagram(control_wire::frames::Refusal::HeaderLen(16)),
            Reason::Malformed,
            "a header length of 16 is below 20",
        ),
        (
            Refusal::Message(messages::Refusal::Udp(udp::Refusal::Port)),
            Reason::Malformed,
            "the destination port is 0",
        ),
        (
            Refusal::Message(messages::Refusal::Icmp4(Icmpv4Refusal::Error(quote))),
            Reason::Quote,
            "the quoted header is of version 6",
        ),
        (
            Refusal::Message(messages::Refusal::Icmp4(Icmpv4Refusal::Message(
                icmpv4::Refusal::UnknownCode(1),
            ))),
            Reason::Malformed,
            "an echo of code 1 is not read",
        ),
        (
            Refusal::Message(messages::Refusal::Igmp(igmp::Refusal::UnknownType(0x22))),
            Reason::UnknownType,
            "type 34 is not read",
        ),
        (
            Refusal::Message(messages::Refusal::Icmp6(Icmpv6Refusal::Message(
                icmpv6::Refusal::Length,
            ))),
            Reason::Short,
            "fewer bytes than the header of its type",
        ),
        (
            Refusal::Message(messages::Refusal::Lack(Lack::Records)),
            Reason::Short,
            "fewer records than the report counts",
        ),
        (
            Refusal::Message(messages::Refusal::Dhcp(dhcp_fields::Refusal::MagicCookie)),
            Reason::Malformed,
            "the magic cookie is missing",
        ),
        (
            Refusal::Message(messages::Refusal::Dns(Unread::Header)),
            Reason::Short,
            "fewer than 12 bytes",
        ),
        (
            Refusal::Message(messages::Refusal::Dns(Unread::Entry(
                Section::Additional,
                control_wire::record::Refusal::Data,
            ))),
            Reason::Malformed,
            "additional: the data is cut",
        ),
        (
            Refusal::Message(messages::Refusal::Dns(Unread::Question(
                NameRefusal::Pointer(12),
            ))),
            Reason::Name,
            "question: a pointer to place 12 leads nowhere or round",
        ),
        (
            Refusal::Message(messages::Refusal::Dns(Unread::Record(TextRefusal::Owner(
                NameRefusal::TooLong,
            )))),
            Reason::Name,
            "the owner: the name has more than 255 octets",
        ),
        (
            Refusal::Message(messages::Refusal::Dns(Unread::Record(TextRefusal::Data(
                DataRefusal::Address(4),
            )))),
            Reason::Malformed,
            "the data: the address has other than 4 bytes",
        ),
        (
            Refusal::Message(messages::Refusal::Dns(Unread::Record(
                TextRefusal::DataName(NameRefusal::Part(PartRefusal::LabelType(64))),
            ))),
            Reason::Name,
            "a name in the data: a label that begins with byte 64 is not read",
        ),
        (
            Refusal::Message(messages::Refusal::Dns(Unread::Option(
                OptionRefusal::Fields,
            ))),
            Reason::Malformed,
            "the options: the code and the length are cut",
        ),
    ];
    for &(refusal, reason, phrase) in rows {
        prints(&refusal, phrase);
        same_of(phrase, refusal.reason(false), reason);
    }
}

#[test]
fn what_ends_early_was_cut_where_the_capture_kept_less() {
    let rows = [
        Refusal::Frame(link::Refusal::Short),
        Refusal::Datagram(control_wire::frames::Refusal::Short),
    ];
    for refusal in rows {
        same_of(refusal, refusal.reason(true), Reason::Cut);
        same_of(refusal, refusal.reason(false), Reason::Short);
    }
    let short = Refusal::Message(messages::Refusal::Udp(udp::Refusal::Short));
    same_of(short, short.reason(true), Reason::Short);
}
