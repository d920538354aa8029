// Made from crates/frame_wire/src/link/vlans.rt by rust/erase.
//! Iteration over the VLAN tags of a frame.

use super::{Frame, behind};

// The bytes of a tag.
const TAG_LEN: usize = 4;

/// A VLAN tag (IEEE 802.1Q clause 9.6).
#[derive(Debug, PartialEq, Eq, Clone, Copy)]
pub struct VlanTag {
    /// The priority of the frame, 0 to 7 (PCP).
    pub priority: u8,
    /// Whether the frame is among the first to be dropped (DEI).
    pub drop_eligible: bool,
    /// The number of the VLAN, 0 to 4,095 (VID); 0 is no VLAN: the tag has a priority alone.
    pub number: u16,
}

/// The VLAN tags of a frame in turn, the outermost first.
///
/// ```
/// use control_wire::frames::Link;
///
/// // A frame of Ethernet with the tag of a service, of priority 5, around that of a customer.
/// let octets = [
///     2, 0, 0, 0, 0, 2, 2, 0, 0, 0, 0, 1, 0x88, 0xa8, 0xa0, 0x64, 0x81, 0x00, 0x00, 0x07, 0x08, 0x00, 0x45,
/// ];
/// let frame = Link::Ethernet.frame(&octets)?;
/// let numbers: Vec<u16> = frame.vlan_tags().map(|tag| tag.number).collect();
/// assert_eq!(numbers, [100, 7]);
/// assert_eq!(frame.vlan_tags().next().unwrap().priority, 5);
/// # Ok::<(), control_wire::Error>(())
/// ```
#[derive(Debug, Clone)]
pub struct VlanTags<'a> {
    // The octets after the tags that were returned.
    left: &'a [u8],
}

impl<'a> Frame<'a> {
    /// The VLAN tags in turn, the outermost first.
    pub fn vlan_tags(&self) -> VlanTags<'a> {
        VlanTags { left: self.tags }
    }
}

impl Iterator for VlanTags<'_> {
    type Item = VlanTag;

    fn next(&mut self) -> Option<VlanTag> {
        if self.left.len() < TAG_LEN {
            return None;
        }
        let tag = tag_of(self.left[0], self.left[1]);
        self.left = behind(self.left, TAG_LEN);
        Some(tag)
    }
}

// The tag of two bytes.
fn tag_of(high: u8, low: u8) -> VlanTag {
    VlanTag {
        priority: high / 32,
        drop_eligible: high / 16 % 2 == 1,
        number: 256 * (high % 16) as u16 + low as u16,
    }
}
