// Made from crates/dump_captures/src/options.rt by rust/erase.
//! Options: what is printed of a capture.

use crate::host::{Host, has_host};
use crate::kind::KINDS;
use crate::owners::has_name;
use crate::ports::Ports;
use crate::sight::Headers;
use control_wire::record::Name;
use packet_fields::Form;

/// Which control packets are chosen.
#[derive(Debug, PartialEq, Eq, Clone, Copy)]
pub struct Only {
    /// Those of each kind, by its index.
    pub kinds: [bool; KINDS],
    /// Those that have hop-by-hop options.
    pub hop_by_hop: bool,
}

impl Only {
    /// All.
    pub const ALL: Only = Only {
        kinds: [true; KINDS],
        hop_by_hop: true,
    };

    /// None.
    pub const NONE: Only = Only {
        kinds: [false; KINDS],
        hop_by_hop: false,
    };

    /// Whether a control packet is one of these.
    #[inline]
    pub fn has(&self, headers: &Headers<'_>) -> bool {
        let place = headers.content.kind().place();
        self.kinds[place] || (self.hop_by_hop && headers.hop_by_hop.is_some())
    }
}

/// How the time of a packet is printed.
#[derive(Debug, PartialEq, Eq, Clone, Copy)]
pub enum TimeForm {
    /// As RFC 3339 writes it, in UTC.
    Utc,
    /// The time of day, in UTC, with milliseconds.
    Clock,
    /// The seconds since the first packet of the file.
    Relative,
    /// The seconds since the packet that was printed before.
    Delta,
    /// The seconds since 1970-01-01T00:00:00Z.
    Epoch,
}

/// Where lines are colored.
#[derive(Debug, PartialEq, Eq, Clone, Copy)]
pub enum Color {
    /// On a terminal, unless the environment has a variable `NO_COLOR` that is not empty. The program finds out; what
    /// is dumped by a function is not colored.
    Auto,
    /// Everywhere.
    Always,
    /// Nowhere.
    Never,
}

/// What is printed of a capture.
pub struct Options {
    /// The packets that are chosen.
    pub only: Only,
    /// The host that a packet is from or to, where it matters.
    pub host: Option<Host>,
    /// The name of which a message has a question or a record, or of one that ends in it, where it matters.
    pub name: Option<Name>,
    /// The number of chosen packets after which a capture is not read further, where there is one.
    pub most: Option<u64>,
    /// Whether they are printed, and not only counted.
    pub prints: bool,
    /// The form in which they are printed.
    pub form: Form,
    /// Whether in lines each is printed on a line.
    pub is_brief: bool,
    /// Whether in lines each has its link addresses, its length, and the hops that are left.
    pub is_verbose: bool,
    /// Where lines are colored: headings are bold, and of packets on a line those red that are refused or read in part.
    pub color: Color,
    /// The form of their times; None for the usual one.
    pub time_form: Option<TimeForm>,
    /// Whether a message whose checksum is wrong is refused.
    pub is_strict: bool,
    /// Whether answers are told, and the questions that got none.
    pub pairs: bool,
    /// Whether a page of what messages say is printed in the place of packets.
    pub stats: bool,
    /// The ports that are given to services beside their own.
    pub ports: Ports,
}

impl Options {
    /// All packets are printed, in lines.
    pub const ALL: Options = Options {
        only: Only::ALL,
        host: None,
        name: None,
        most: None,
        prints: true,
        form: Form::Lines,
        is_brief: false,
        is_verbose: false,
        color: Color::Auto,
        time_form: None,
        is_strict: false,
        pairs: false,
        stats: false,
        ports: Ports::NONE,
    };

    /// Whether a control packet is chosen.
    #[inline]
    pub fn chooses(&self, headers: &Headers<'_>) -> bool {
        self.is_in_reach(headers) && has_name(&self.name, &headers.content)
    }

    // Whether it may be, by what its headers tell.
    #[inline]
    fn is_in_reach(&self, headers: &Headers<'_>) -> bool {
        self.only.has(headers) && has_host(&self.host, &headers.addresses)
    }
}
