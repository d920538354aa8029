// Made from crates/packet_stats/src/icmp6.rt by rust/erase.
//! Messages of ICMPv6.

use crate::stats::Stats;
use crate::subject::IpAddress;
use crate::table::Fault;
use control_wire::Ipv6Address;

// The types of reports of multicast listeners (RFC 2710 section 3, RFC 3810 section 5.2).
const OLD_REPORT: u8 = 131;

const NEW_REPORT: u8 = 143;

impl Stats {
    // Counts what a message from an address says.
    pub(crate) fn count_icmp6(&mut self, source: Ipv6Address, octets: &[u8]) -> Result<(), Fault> {
        if octets.is_empty() {
            return Ok(());
        }
        match octets[0] {
            OLD_REPORT => self.count_old_report(IpAddress::V6(source), octets),
            NEW_REPORT => self.count_new_report(IpAddress::V6(source), octets),
            _ => self.count_neighbors(source, octets),
        }
    }
}
