// Made from crates/tests_icmp/src/icmp6/plain_reader/listener.rt by rust/erase.
// Messages of multicast listener discovery (RFC 3810 section 5).

use super::split_header;
use control_wire::Ipv6Address;
use control_wire::mld::Repr;

// A query or a report, whatever its code.
pub(crate) fn message(octets: &[u8]) -> Option<Repr<'_>> {
    let (header, data) = split_header(octets)?;
    match header {
        [130, _, _, _, high, low, _, _, rest @ ..] => {
            let (group, rest) = rest.split_first_chunk::<16>()?;
            let [flags, qqic, first, second] = rest else {
                return None;
            };
            Some(Repr::Query {
                max_resp_code: u16::from_be_bytes([*high, *low]),
                mcast_addr: Ipv6Address::from_octets(*group),
                s_flag: *flags & 0x08 != 0,
                qrv: *flags & 0x07,
                qqic: *qqic,
                num_srcs: u16::from_be_bytes([*first, *second]),
                data,
            })
        }
        [143, _, _, _, _, _, high, low] => Some(Repr::Report {
            nr_mcast_addr_rcrds: u16::from_be_bytes([*high, *low]),
            data,
        }),
        _ => None,
    }
}
