// Made from crates/neighbor_fields/src/ndisc/options.rt by rust/erase.
//! Options of neighbor discovery (RFC 4861 section 4.6).

use super::others::show_other;
use super::reasons::wrong_form;
use control_wire::Octets;
use control_wire::inside::text::{Sink, put_number};
use packet_fields::Form;
use packet_fields::entries::show_octets;
use packet_fields::entry::{close_entry, first_cell, hidden_number, keyed_cell, open_entry};
use packet_fields::label::Label;
use packet_fields::names::{Row, name_in};
use packet_fields::parts::{Part, show_parts};
use packet_fields::texts::{Address, Flags};
use packet_fields::value::{Colons, Seconds, Text, Value, put_text};
use rattle_std::io;
use rattle_std::io::Write;

const SOURCE_ADDRESS: u8 = 1;

const TARGET_ADDRESS: u8 = 2;

pub(super) const PREFIX_INFORMATION: u8 = 3;

pub(super) const REDIRECTED_HEADER: u8 = 4;

pub(super) const MTU: u8 = 5;

// The octets of a unit.
const UNIT: usize = 8;

// The octets of a type and a length.
pub(super) const HEAD_LEN: usize = 2;

// The fields of options; those of a redirected packet begin at its IPv6 header.
pub(super) mod place {
    use control_wire::octets::Field;

    pub const PREFIX_LEN: Field = 2..3;

    pub const PREFIX_FLAGS: Field = 3..4;

    pub const VALID_LIFETIME: Field = 4..8;

    pub const PREFERRED_LIFETIME: Field = 8..12;

    pub const PREFIX: Field = 16..32;

    pub const PREFIX_END: usize = 32;

    pub const QUOTED_VERSION: Field = 8..9;

    pub const QUOTED_PAYLOAD_LEN: Field = 12..14;

    pub const QUOTED_NEXT_HEADER: Field = 14..15;

    pub const QUOTED_HOP_LIMIT: Field = 15..16;

    pub const QUOTED_SRC_ADDR: Field = 16..32;

    pub const QUOTED_DST_ADDR: Field = 32..48;

    pub const QUOTED_END: usize = 48;

    pub const MTU: Field = 4..8;

    pub const MTU_END: usize = 8;
}

// Prints all options of a message in turn, by its octets behind the fields. An option that is cut, or counts no octets,
// is the last entry, with the octets that are left, and says so; one that has not the form of its type says so too.
pub(super) fn show_options<W: Write>(output: &mut W, form: Form, options: &[u8]) -> io::Result<()> {
    show_parts::<Options, W>(output, form, "options", options.len(), options)
}

/// The options as parts of octets.
pub struct Options;

impl Part for Options {
    fn len_of(octets: &[u8]) -> usize {
        if octets.len() < HEAD_LEN || octets[1] == 0 {
            return octets.len();
        }
        octets.len().min(UNIT * octets[1] as usize)
    }

    fn show<W: Write>(output: &mut W, form: Form, is_first: bool, part: &[u8]) -> io::Result<()> {
        match refusal(part) {
            Some(why) => show_plain(output, form, is_first, part, Some(why)),
            None => show_whole(output, form, is_first, part),
        }
    }
}

/// Why an option is refused, where it is. Requires an octet.
pub fn refusal(option: &[u8]) -> Option<&'static str> {
    if option.len() < HEAD_LEN {
        return Some("no length");
    }
    if option[1] == 0 {
        return Some("a length of 0");
    }
    if option.len() != UNIT * option[1] as usize {
        return Some("fewer bytes than the option counts");
    }
    wrong_form(option)
}

// Prints an option that is not refused.
fn show_whole<W: Write>(
    output: &mut W,
    form: Form,
    is_first: bool,
    option: &[u8],
) -> io::Result<()> {
    let (_, address) = option.split_at(HEAD_LEN);
    match option[0] {
        SOURCE_ADDRESS => show_address(output, form, is_first, SOURCE_ADDRESS, address),
        TARGET_ADDRESS => show_address(output, form, is_first, TARGET_ADDRESS, address),
        PREFIX_INFORMATION => show_prefix(output, form, is_first, option),
        REDIRECTED_HEADER => show_redirected(output, form, is_first, option),
        MTU => show_mtu(output, form, is_first, option),
        _ => show_other(output, form, is_first, option),
    }
}

// Prints an option by its octets, and why it is refused where it is.
pub(super) fn show_plain<W: Write>(
    output: &mut W,
    form: Form,
    is_first: bool,
    option: &[u8],
    refused: Option<&str>,
) -> io::Result<()> {
    let (_, data) = option.split_at(HEAD_LEN.min(option.len()));
    show_octets(
        output,
        form,
        is_first,
        "option",
        label_of(option[0]),
        data,
        refused,
    )
}

// Prints a link-layer address.
fn show_address<W: Write>(
    output: &mut W,
    form: Form,
    is_first: bool,
    type_: u8,
    address: &[u8],
) -> io::Result<()> {
    open_entry(output, form, is_first, "option", label_of(type_))?;
    first_cell(output, form, "addr", Colons(address))?;
    hidden_number(output, form, "type", type_ as u64)?;
    close_entry(output, form)
}

// Prints a prefix.
fn show_prefix<W: Write>(
    output: &mut W,
    form: Form,
    is_first: bool,
    option: &[u8],
) -> io::Result<()> {
    let prefix = Prefix {
        address: Address(option.field(place::PREFIX)),
        len: option.u8_at(place::PREFIX_LEN),
    };
    open_entry(
        output,
        form,
        is_first,
        "option",
        label_of(PREFIX_INFORMATION),
    )?;
    first_cell(output, form, "prefix", prefix)?;
    show_lifetimes(output, form, option)?;
    hidden_number(output, form, "type", PREFIX_INFORMATION as u64)?;
    close_entry(output, form)
}

// Prints flags and lifetimes of a prefix.
fn show_lifetimes<W: Write>(output: &mut W, form: Form, option: &[u8]) -> io::Result<()> {
    let valid = Seconds(option.u32_at(place::VALID_LIFETIME));
    let preferred = Seconds(option.u32_at(place::PREFERRED_LIFETIME));
    show_flags(output, form, option.u8_at(place::PREFIX_FLAGS))?;
    keyed_cell(output, form, "valid_lifetime", valid)?;
    keyed_cell(output, form, "preferred_lifetime", preferred)
}

// Prints the flags of a prefix.
fn show_flags<W: Write>(output: &mut W, form: Form, bits: u8) -> io::Result<()> {
    let flags = Flags {
        rows: PREFIX_FLAGS,
        bits: bits as u16,
    };
    keyed_cell(output, form, "flags", flags)
}

/// A prefix, by its text.
#[derive(Clone, Copy)]
pub struct Prefix<'a> {
    /// The address.
    pub address: Address<'a>,
    /// The length in bits.
    pub len: u8,
}

impl Text for Prefix<'_> {
    fn put_into<O, S: Sink<O>>(self, output: &mut O) -> Result<(), S::Error> {
        self.address.put_into::<O, S>(output)?;
        S::put_str(output, "/")?;
        put_number::<O, S>(output, self.len as u64)
    }
}

impl Value for Prefix<'_> {
    fn put<W: Write>(self, output: &mut W, form: Form) -> io::Result<()> {
        put_text(output, form, self)
    }
}

// Prints a redirected packet.
fn show_redirected<W: Write>(
    output: &mut W,
    form: Form,
    is_first: bool,
    option: &[u8],
) -> io::Result<()> {
    let src_addr = option.field(place::QUOTED_SRC_ADDR);
    open_entry(
        output,
        form,
        is_first,
        "option",
        label_of(REDIRECTED_HEADER),
    )?;
    first_cell(output, form, "quoted_src_addr", Address(src_addr))?;
    show_quoted(output, form, option)?;
    hidden_number(output, form, "type", REDIRECTED_HEADER as u64)?;
    close_entry(output, form)
}

// Prints what a redirected packet has besides the source.
fn show_quoted<W: Write>(output: &mut W, form: Form, option: &[u8]) -> io::Result<()> {
    let dst_addr = option.field(place::QUOTED_DST_ADDR);
    let (_, payload) = option.split_at(place::QUOTED_END);
    keyed_cell(output, form, "quoted_dst_addr", Address(dst_addr))?;
    keyed_cell(
        output,
        form,
        "quoted_next_header",
        option.u8_at(place::QUOTED_NEXT_HEADER),
    )?;
    keyed_cell(
        output,
        form,
        "quoted_hop_limit",
        option.u8_at(place::QUOTED_HOP_LIMIT),
    )?;
    keyed_cell(
        output,
        form,
        "quoted_payload_len",
        option.u16_at(place::QUOTED_PAYLOAD_LEN),
    )?;
    keyed_cell(output, form, "quoted_payload", payload)
}

// Prints an MTU.
fn show_mtu<W: Write>(output: &mut W, form: Form, is_first: bool, option: &[u8]) -> io::Result<()> {
    open_entry(output, form, is_first, "option", label_of(MTU))?;
    first_cell(output, form, "mtu", option.u32_at(place::MTU))?;
    hidden_number(output, form, "type", MTU as u64)?;
    close_entry(output, form)
}

// What an option is called.
pub(super) fn label_of(type_: u8) -> Label<'static> {
    Label {
        name: name_in(OPTIONS, type_ as u16),
        kind: "option",
        number: type_,
    }
}

const PREFIX_FLAGS: &[Row] = &[
    (0x80, "on_link"),
    (0x40, "autonomous"),
    (0x20, "router_address"),
    (0x10, "dhcpv6_pd_preferred"),
    (0x08, "0x08"),
    (0x04, "0x04"),
    (0x02, "0x02"),
    (0x01, "0x01"),
];

// IANA's registry of the options of neighbor discovery.
const OPTIONS: &[Row] = &[
    (1, "source_link_layer_address"),
    (2, "target_link_layer_address"),
    (3, "prefix_information"),
    (4, "redirected_header"),
    (5, "mtu"),
    (6, "nbma_shortcut_limit"),
    (7, "advertisement_interval"),
    (8, "home_agent_information"),
    (9, "source_address_list"),
    (10, "target_address_list"),
    (11, "cga"),
    (12, "rsa_signature"),
    (13, "timestamp"),
    (14, "nonce"),
    (15, "trust_anchor"),
    (16, "certificate"),
    (17, "ip_address_or_prefix"),
    (18, "new_router_prefix_information"),
    (19, "link_layer_address"),
    (20, "neighbor_advertisement_acknowledgment"),
    (21, "pvd_id_router_advertisement"),
    (23, "map"),
    (24, "route_information"),
    (25, "recursive_dns_server"),
    (26, "ra_flags_extension"),
    (27, "handover_key_request"),
    (28, "handover_key_reply"),
    (29, "handover_assist_information"),
    (30, "mobile_node_identifier"),
    (31, "dns_search_list"),
    (32, "proxy_signature"),
    (33, "address_registration"),
    (34, "6lowpan_context"),
    (35, "authoritative_border_router"),
    (36, "6lowpan_capability_indication"),
    (37, "captive_portal"),
    (38, "pref64"),
    (39, "crypto_id_parameters"),
    (40, "ndp_signature"),
    (41, "resource_directory_address"),
    (138, "card_request"),
    (139, "card_reply"),
    (144, "encrypted_dns"),
    (253, "experiment_1"),
    (254, "experiment_2"),
];
